//! One call made to two executives on equal memory; all of it is compared afterwards.

use crate::difference::Difference;
use crate::memory::Memory;
use crate::places::{answer, counts};
use crate::tally::Tally;
use samblokur_sys::{Counts, Executive, Report};
use std::marker::PhantomData;

/// What a report and counts hold before a call, so that a field left unwritten shows.
const STALE: Report = Report { number: 901, record: 902, ending: 903, steps: 904, next: 905 };
const STALE_COUNTS: Counts = Counts { nodes: 911, exprs: 912, vars: 913, looks: 914 };

/// The pair, and what it met.
pub struct Pair<S, M> {
    pub tally: Tally,
    executives: PhantomData<(S, M)>,
}

impl<S: Executive, M: Executive> Pair<S, M> {
    pub fn new() -> Pair<S, M> {
        Pair { tally: Tally::default(), executives: PhantomData }
    }

    pub fn check(&mut self, image: &[u8]) -> Result<Report, Difference> {
        let (mut found, mut report) = ([STALE_COUNTS; 2], [STALE; 2]);
        let subject = S::check(image, &mut found[0], &mut report[0]);
        let model = M::check(image, &mut found[1], &mut report[1]);
        self.tally.answer(&report[1]);
        if subject == model && report[0] == report[1] && found[0] == found[1] {
            return Ok(report[1]);
        }
        let told = |number, i: usize| [answer(number, &report[i]), counts(&found[i])].into_iter().flatten();
        let (subject, model) = (told(subject, 0).collect(), told(model, 1).collect());
        Err(Difference::of("check", subject, model).given("image", image))
    }

    pub fn fresh(&mut self, image: &[u8], memory: &mut Memory) -> Result<Report, Difference> {
        self.both("fresh", image, memory, |memory, report, subject| {
            let call = if subject { S::fresh } else { M::fresh };
            call(image, &mut memory.state, &mut memory.card, report)
        })
    }

    pub fn run(
        &mut self,
        image: &[u8],
        memory: &mut Memory,
        budget: u16,
        start: usize,
    ) -> Result<Report, Difference> {
        let name = format!("run with budget {budget} from place {start}");
        let report = self.both(&name, image, memory, |memory, report, subject| {
            let call = if subject { S::run } else { M::run };
            let Memory { state, card, list } = memory;
            call(image, state, card, budget, list, start, report)
        })?;
        self.ran(image, memory, &report);
        Ok(report)
    }

    pub fn turn(
        &mut self,
        image: &[u8],
        memory: &mut Memory,
        event: &[u8],
        budget: u16,
        start: usize,
    ) -> Result<Report, Difference> {
        let name = format!("turn with budget {budget} from place {start}");
        let turned = self.both(&name, image, memory, |memory, report, subject| {
            let call = if subject { S::turn } else { M::turn };
            let Memory { state, card, list } = memory;
            call(image, state, card, event, budget, list, start, report)
        });
        let report = turned.map_err(|difference| difference.given("event", event))?;
        self.ran(image, memory, &report);
        Ok(report)
    }

    /// Counts what a run or a turn left, if it was accepted.
    fn ran(&mut self, image: &[u8], memory: &Memory, report: &Report) {
        if report.number == 0 {
            let nodes = u16::from_le_bytes([image[2], image[3]]);
            self.tally.run(usize::from(nodes), &memory.state, report);
        }
    }

    /// Makes a call twice on equal memory. "Apart from 32 a refusal changes nothing."
    fn both(
        &mut self,
        name: &str,
        image: &[u8],
        memory: &mut Memory,
        call: impl Fn(&mut Memory, &mut Report, bool) -> u32,
    ) -> Result<Report, Difference> {
        let before = memory.clone();
        let (mut other, mut report) = (before.clone(), [STALE; 2]);
        let subject = call(&mut other, &mut report[0], true);
        let model = call(memory, &mut report[1], false);
        self.tally.answer(&report[1]);
        if model != 0 && model != 32 && *memory != before {
            return Err(Difference::broken("a refusal changes something")
                .given("image", image)
                .before(&before));
        }
        if subject == model && report[0] == report[1] && other == *memory {
            return Ok(report[1]);
        }
        let told = |number, i: usize, memory: &Memory| {
            [answer(number, &report[i]), memory.places()].into_iter().flatten().collect()
        };
        let difference = Difference::of(name, told(subject, 0, &other), told(model, 1, memory));
        Err(difference.given("image", image).before(&before))
    }
}
