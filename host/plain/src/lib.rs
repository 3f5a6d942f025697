//! An independent plan executive, written straight from the paper: it visits every node and evaluates every
//! condition in each step. The proved library is tested and measured against it.

mod check;
mod event;
mod expression;
mod form;
mod fresh;
mod image;
mod rule;
mod run;
mod step;
mod value;

use image::Image;
use run::Ending;
use samblokur_sys::{Card, Counts, Executive, Report, State};

/// The plain executive.
#[derive(Clone, Copy, Debug)]
pub struct Plain;

/// A refusal: the paper's number and the record or entry that it names.
#[derive(Clone, Copy)]
struct Refused {
    number: u32,
    record: u32,
}

impl Refused {
    /// A refusal that names no record answers 0.
    fn whole(number: u32) -> Refused {
        Refused { number, record: 0 }
    }
}

impl Executive for Plain {
    fn check(image: &[u8], counts: &mut Counts, report: &mut Report) -> u32 {
        let answer = check::check(image);
        *counts = answer.map_or(Counts::default(), |image| image.counts);
        tell(report, answer.map(|_| ()))
    }

    fn fresh(image: &[u8], state: &mut State, card: &mut Card, report: &mut Report) -> u32 {
        let answer = check::check(image).map(|image| {
            *state = fresh::fresh(&image);
            *card = Card { serial: 0, phase: form::RUNNING };
        });
        tell(report, answer)
    }

    fn run(
        image: &[u8],
        state: &mut State,
        card: &mut Card,
        budget: u16,
        list: &mut [u32],
        start: usize,
        report: &mut Report,
    ) -> u32 {
        let answer = accepted(image, state, card).and_then(|image| run::place(image, list.len(), start));
        *report = match answer {
            Err(refused) => refusal(refused, start),
            Ok(image) => ran(&image, state, card, budget, list, start),
        };
        report.number
    }

    fn turn(
        image: &[u8],
        state: &mut State,
        card: &mut Card,
        event: &[u8],
        budget: u16,
        list: &mut [u32],
        start: usize,
        report: &mut Report,
    ) -> u32 {
        let answer = accepted(image, state, card)
            .and_then(|image| run::place(image, list.len(), start))
            .and_then(|image| event::take(&image, state, card, event).map(|()| image));
        *report = match answer {
            Err(refused) => refusal(refused, start),
            Ok(image) => ran(&image, state, card, budget, list, start),
        };
        report.number
    }
}

/// "Every call checks its image first, then 30 (not in a fresh start)".
fn accepted<'a>(image: &'a [u8], state: &State, card: &Card) -> Result<Image<'a>, Refused> {
    let image = check::check(image)?;
    match form::holds(&image, state, card) {
        true => Ok(image),
        false => Err(Refused::whole(30)),
    }
}

/// The run itself, with its report. "The phase is Quiet exactly after the answer Quiet."
fn ran(
    image: &Image,
    state: &mut State,
    card: &mut Card,
    budget: u16,
    list: &mut [u32],
    start: usize,
) -> Report {
    let done = run::run(image, state, budget, list, start);
    card.phase = if done.ending == Ending::Quiet { form::QUIET } else { form::RUNNING };
    done.report()
}

/// The report of a call that does no steps.
fn tell(report: &mut Report, answer: Result<(), Refused>) -> u32 {
    *report = match answer {
        Ok(()) => Report { number: 0, record: 0, ending: 1, steps: 0, next: 0 },
        Err(refused) => refusal(refused, 0),
    };
    report.number
}

/// "refusals but 32 answer 0 and the given start place".
fn refusal(refused: Refused, start: usize) -> Report {
    Report { number: refused.number, record: refused.record, ending: 0, steps: 0, next: start }
}
