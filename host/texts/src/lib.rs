//! Two readers of plans as text on the same texts: answers, places and every byte of the image buffer compared.
//! The generator knows the image of each plan that it prints, so the answer to such a text is known by itself.

mod damage;
mod expr;
mod image;
mod known;
mod largest;
mod limits;
mod make;
mod names;
mod numbers;
mod pair;
mod plan;
mod print;
mod sized;
mod spell;
mod tally;
mod tour;

pub use pair::Difference;
pub use sized::{deepest, sized};
pub use tally::Tally;
pub use tour::{accepted, tour};

/// The reader under test: the proved one.
pub const SUBJECT: samblokur_sys::text::LinkedReader = samblokur_sys::text::LinkedReader;

/// The reader that it is held against.
pub const MODEL: reader::PlainReader = reader::PlainReader;
