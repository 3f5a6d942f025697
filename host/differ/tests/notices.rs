//! The harness notices an executive that is wrong in one small way.

use differ::tour;
use plain::Plain;
use samblokur_sys::{Card, Counts, Executive, Report, State};

/// Which small thing is wrong.
const COUNT: u8 = 0;
const REPORT: u8 = 1;
const BEYOND: u8 = 2;
const REFUSAL: u8 = 3;
const STATE: u8 = 4;
const GIVES_BACK: u8 = 5;

/// The plain executive with one thing wrong.
struct Wrong<const WHAT: u8>;

impl<const WHAT: u8> Executive for Wrong<WHAT> {
    fn check(image: &[u8], counts: &mut Counts, report: &mut Report) -> u32 {
        let number = Plain::check(image, counts, report);
        if WHAT == COUNT && number != 0 {
            counts.looks = 1;
        }
        number
    }

    fn fresh(image: &[u8], state: &mut State, card: &mut Card, report: &mut Report) -> u32 {
        Plain::fresh(image, state, card, report)
    }

    fn run(
        image: &[u8],
        state: &mut State,
        card: &mut Card,
        budget: u16,
        list: &mut [u32],
        start: usize,
        report: &mut Report,
    ) -> u32 {
        let number = Plain::run(image, state, card, budget, list, start, report);
        if WHAT == REPORT && report.ending == 2 {
            report.steps += 1;
        }
        if let Some(word) = list.get_mut(report.next).filter(|_| WHAT == BEYOND) {
            *word = 0;
        }
        if WHAT == STATE && number == 32 {
            state.mark[255] = 1;
        }
        number
    }

    fn turn(
        image: &[u8],
        state: &mut State,
        card: &mut Card,
        event: &[u8],
        budget: u16,
        list: &mut [u32],
        start: usize,
        report: &mut Report,
    ) -> u32 {
        let before = (state.clone(), *card);
        let number = Plain::turn(image, state, card, event, budget, list, start, report);
        if WHAT == REFUSAL && number == 24 {
            card.serial = card.serial.wrapping_add(1);
        }
        if WHAT == GIVES_BACK && number == 32 {
            (*state, *card) = before;
        }
        number
    }
}

fn is_noticed<const WHAT: u8>() -> bool {
    tour::<Wrong<WHAT>, Plain>(1, 20_000).is_err()
}

#[test]
fn wrong_executives_are_noticed() {
    assert!(is_noticed::<COUNT>());
    assert!(is_noticed::<REPORT>());
    assert!(is_noticed::<BEYOND>());
    assert!(is_noticed::<REFUSAL>());
    assert!(is_noticed::<STATE>());
    assert!(is_noticed::<GIVES_BACK>());
}
