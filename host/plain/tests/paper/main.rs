//! The plain executive held against the paper.

mod errors;
mod known_ends;
mod refusals;
mod table;
