//! Two executives on the same random calls, compared byte for byte: state, card, list, counts and report.

mod command;
mod damage;
mod difference;
mod draft;
mod events;
mod memory;
mod misses;
mod pair;
mod places;
mod plans;
mod random;
mod states;
mod tally;
mod tour;

pub use command::command;
pub use difference::Difference;
pub use random::Random;
pub use tally::Tally;
pub use tour::tour;

/// The executive under test.
pub type Subject = samblokur_sys::Library;

/// The executive that it is held against.
pub type Model = plain::Plain;
