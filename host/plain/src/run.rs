//! A run to quiet under a step budget.

use crate::Refused;
use crate::image::Image;
use crate::step::step;
use samblokur_sys::{Report, State};

#[derive(Clone, Copy, PartialEq, Eq)]
pub enum Ending {
    Quiet,
    Spent,
    NoRoom,
}

/// How a run ended, its count of steps and the next free place in the list.
pub struct Run {
    pub ending: Ending,
    pub steps: u32,
    pub next: usize,
}

impl Run {
    pub fn report(&self) -> Report {
        let (number, ending) = match self.ending {
            Ending::Quiet => (0, 1),
            Ending::Spent => (0, 2),
            Ending::NoRoom => (32, 0),
        };
        Report { number, record: 0, ending, steps: self.steps, next: self.next }
    }
}

/// 31 Place: "list start beyond its end".
pub fn place(image: Image, room: usize, start: usize) -> Result<Image, Refused> {
    if start > room { Err(Refused::whole(31)) } else { Ok(image) }
}

/// "A run steps until Quiet, or answers Spent if its budget is used and a rule still applies, or else NoRoom."
pub fn run(image: &Image, state: &mut State, budget: u16, list: &mut [u32], start: usize) -> Run {
    let (mut steps, mut next) = (0, start);
    loop {
        let Some(step) = step(image, state) else { return Run { ending: Ending::Quiet, steps, next } };
        if steps == u32::from(budget) {
            return Run { ending: Ending::Spent, steps, next };
        }
        let end = next + step.words.len();
        let Some(part) = list.get_mut(next..end) else { return Run { ending: Ending::NoRoom, steps, next } };
        part.copy_from_slice(&step.words);
        *state = step.next;
        next = end;
        steps += 1;
    }
}
