//! Refusal 30: what a kept state and card must be.

use crate::image::{ASSIGNMENT, COMMAND, Image, LIST};
use crate::rule::{EXECUTING, FAILING, FINISHED, FINISHING, INACTIVE, WAITING};
use crate::step::step;
use crate::value::is_constant;
use samblokur_sys::{Card, State};

pub const RUNNING: u32 = 0;
pub const QUIET: u32 = 1;

/// Refusal 30 is given exactly when this is false.
pub fn holds(image: &Image, state: &State, card: &Card) -> bool {
    card.phase <= QUIET
        && (0..image.nodes()).all(|i| node_right(image, state, i))
        && (image.nodes()..256).all(|i| unused(state, i))
        && cells_right(&state.vartags, &state.varbits, image.vars(), |v| image.variable(v).kind)
        && cells_right(&state.looktags, &state.lookbits, image.looks(), |l| image.lookup(l).kind)
        && (card.phase == RUNNING || step(image, state).is_none())
}

fn unused(state: &State, i: usize) -> bool {
    state.status[i] == 0 && state.outcome[i] == 0 && state.failure[i] == 0 && state.mark[i] == 0
}

fn node_right(image: &Image, state: &State, i: usize) -> bool {
    let node = image.node(i);
    let status = state.status[i];
    let family_right = match i {
        0 => status != INACTIVE,
        _ => under(state.status[usize::from(node.parent)], status),
    };
    let status_right = status <= FINISHED
        && (status != FINISHING || node.kind == LIST)
        && (status != FAILING || node.kind != ASSIGNMENT);
    let awaited = node.kind == COMMAND && (status == EXECUTING || status == FAILING);
    let mark_right = state.mark[i] == 0 || (state.mark[i] == 1 && awaited);
    status_right && state.outcome[i] <= 3 && state.failure[i] <= 5 && family_right && mark_right
}

/// "Under Inactive, Waiting, IterationEnded or Finished a child is Inactive, Waiting or Finished. Under
/// Finishing or Failing it is anything but Inactive. Under Executing, anything."
fn under(parent: u8, child: u8) -> bool {
    match parent {
        EXECUTING => true,
        FINISHING | FAILING => child != INACTIVE,
        _ => child == INACTIVE || child == WAITING || child == FINISHED,
    }
}

/// A known cell's tag is its kind and 1 and its bits a constant of that kind; a cell past the count is Unknown.
fn cells_right(tags: &[u8], bits: &[u64], count: usize, kind: impl Fn(usize) -> u8) -> bool {
    tags.iter().zip(bits).enumerate().all(|(i, (&tag, &bits))| match tag {
        0 => bits == 0,
        tag => i < count && tag == kind(i) + 1 && is_constant(kind(i), bits),
    })
}
