//! What a host lends to a call.

use crate::places::{Place, place, places};
use samblokur_sys::{Card, State};

/// A state, card and list between calls.
#[derive(Clone, Debug, PartialEq)]
pub struct Memory {
    pub state: State,
    pub card: Card,
    pub list: Vec<u32>,
}

impl Memory {
    /// All numbers of the memory, named.
    pub fn places(&self) -> Vec<Place> {
        let state = &self.state;
        let card = vec![place("card.serial", self.card.serial), place("card.phase", self.card.phase)];
        [
            card,
            places("status", &state.status),
            places("outcome", &state.outcome),
            places("failure", &state.failure),
            places("mark", &state.mark),
            places("vartags", &state.vartags),
            places("varbits", &state.varbits),
            places("looktags", &state.looktags),
            places("lookbits", &state.lookbits),
            places("list", &self.list),
        ]
        .into_iter()
        .flatten()
        .collect()
    }
}
