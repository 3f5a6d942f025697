//! The numbers that a call answers and leaves, each with its name.

use samblokur_sys::{Counts, Report};

/// A named number of the memory or the answer.
pub struct Place {
    pub name: String,
    pub value: u64,
}

/// A named number.
pub fn place(name: impl Into<String>, value: impl Into<u64>) -> Place {
    Place { name: name.into(), value: value.into() }
}

/// The numbers of a list.
pub fn places<T: Copy + Into<u64>>(name: &str, numbers: &[T]) -> Vec<Place> {
    numbers.iter().enumerate().map(|(i, &number)| place(format!("{name}[{i}]"), number)).collect()
}

/// The numbers of an answer.
pub fn answer(number: u32, report: &Report) -> Vec<Place> {
    vec![
        place("number returned", number),
        place("report.number", report.number),
        place("report.record", report.record),
        place("report.ending", report.ending),
        place("report.steps", report.steps),
        place("report.next", report.next as u64),
    ]
}

/// The numbers of a check's counts.
pub fn counts(counts: &Counts) -> Vec<Place> {
    places("counts", &[counts.nodes, counts.exprs, counts.vars, counts.looks])
}
