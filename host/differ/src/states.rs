//! Random kept states that pass 30 by construction, reachable or not.

use crate::draft::Draft;
use crate::random::Random;
use samblokur_sys::{Card, State};

const EXECUTING: u8 = 2;
const FINISHING: u8 = 3;
const FAILING: u8 = 4;

/// A state that keeps the form, the kinds and the parent table.
pub fn kept(random: &mut Random, draft: &Draft) -> State {
    let mut state = State::default();
    for (i, node) in draft.nodes.iter().enumerate() {
        let status = match i {
            0 => standing(random, node.body, &[1, 2, 2, 3, 4, 5, 6]),
            _ => under(random, state.status[usize::from(node.parent)], node.body),
        };
        state.status[i] = status;
        state.outcome[i] = random.byte(4);
        state.failure[i] = random.byte(6);
        let awaited = node.body == 1 && (status == EXECUTING || status == FAILING);
        state.mark[i] = u8::from(awaited && random.chance(40));
    }
    for (v, variable) in draft.vars.iter().enumerate() {
        (state.vartags[v], state.varbits[v]) = cell(random, variable.kind);
    }
    for (l, lookup) in draft.looks.iter().enumerate() {
        (state.looktags[l], state.lookbits[l]) = cell(random, lookup.kind);
    }
    state
}

/// A card, now and then with the phase Quiet, which the state may not bear.
pub fn card(random: &mut Random) -> Card {
    let serial = random.pick(&[0, 1, 7, u32::MAX]);
    Card { serial, phase: u32::from(random.chance(40)) }
}

/// The parent table.
fn under(random: &mut Random, parent: u8, body: u8) -> u8 {
    match parent {
        EXECUTING => standing(random, body, &[0, 1, 2, 2, 3, 4, 5, 6]),
        FINISHING | FAILING => standing(random, body, &[1, 2, 2, 3, 4, 5, 6]),
        _ => standing(random, body, &[0, 1, 6]),
    }
}

/// "Finishing occurs in lists only, Failing never in assignments".
fn standing(random: &mut Random, body: u8, few: &[u8]) -> u8 {
    match random.pick(few) {
        FINISHING if body != 0 => EXECUTING,
        FAILING if body == 2 => EXECUTING,
        status => status,
    }
}

fn cell(random: &mut Random, kind: u8) -> (u8, u64) {
    if random.chance(20) { (0, 0) } else { (kind + 1, random.constant(kind)) }
}
