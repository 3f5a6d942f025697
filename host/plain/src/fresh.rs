//! The fresh start, and the variables that return to their initial values.

use crate::image::Image;
use crate::rule::WAITING;
use samblokur_sys::State;

/// "Fresh: node 0 Waiting, others Inactive, outcomes None, variables initial, lookups Unknown, marks clear".
pub fn fresh(image: &Image) -> State {
    let mut state = State::default();
    state.status[0] = WAITING;
    for node in 0..image.nodes() {
        reset_variables(image, &mut state, node);
    }
    state
}

/// "A node's variables return to their initial values when it enters Waiting."
pub fn reset_variables(image: &Image, state: &mut State, node: usize) {
    for v in 0..image.vars() {
        let variable = image.variable(v);
        if usize::from(variable.owner) == node {
            state.vartags[v] = if variable.known == 1 { variable.kind + 1 } else { 0 };
            state.varbits[v] = variable.initial;
        }
    }
}
