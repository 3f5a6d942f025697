//! What is told of a call that two executives answer differently: where they differ, and what they were given.

use crate::memory::Memory;
use crate::places::Place;
use std::fmt;

/// Places that are told at most.
const MOST: usize = 20;

/// A call that two executives answer differently, or in which they break a promise of the paper.
#[derive(Clone, Debug)]
pub struct Difference {
    call: String,
    places: Vec<String>,
    given: Vec<String>,
}

impl Difference {
    /// A call and the places in which its answers differ, the subject's value first.
    pub fn of(call: &str, subject: Vec<Place>, model: Vec<Place>) -> Difference {
        let differ = subject.into_iter().zip(model).filter(|(a, b)| a.value != b.value);
        let places = differ.map(|(a, b)| format!("{}: {}, but model {}", a.name, a.value, b.value));
        Difference { call: call.to_string(), places: places.take(MOST).collect(), given: Vec::new() }
    }

    /// A promise of the paper that is broken.
    pub fn broken(promise: &str) -> Difference {
        Difference { call: promise.to_string(), places: Vec::new(), given: Vec::new() }
    }

    /// With bytes that the call was given.
    pub fn given(mut self, what: &str, bytes: &[u8]) -> Difference {
        let hex: String = bytes.iter().map(|byte| format!("{byte:02x}")).collect();
        self.given.push(format!("{what} ({} bytes): {hex}", bytes.len()));
        self
    }

    /// With the memory before the call.
    pub fn before(mut self, memory: &Memory) -> Difference {
        let told = memory.places().into_iter().filter(|place| place.value != 0);
        let told: Vec<String> = told.map(|place| format!("{} {}", place.name, place.value)).collect();
        self.given.push(format!("before (the rest is 0): {}", told.join(", ")));
        self
    }
}

impl fmt::Display for Difference {
    fn fmt(&self, f: &mut fmt::Formatter<'_>) -> fmt::Result {
        writeln!(f, "the executives differ: {}", self.call)?;
        self.places.iter().chain(&self.given).try_for_each(|line| writeln!(f, "  {line}"))
    }
}
