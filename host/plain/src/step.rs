//! One micro step: every node is visited, all reads are of the state before.

use crate::expression::work_out;
use crate::fresh::reset_variables;
use crate::image::{ASSIGNMENT, Image, LIST, NONE, Node};
use crate::rule::{Deed, EXECUTING, FAILURE, FINISHED, Move, Places, Seen, WAITING, WRITE_LOST, rule};
use crate::value::Value;
use samblokur_sys::State;

/// A state and the command words that a step to it issued, in node order.
pub struct Step {
    pub next: State,
    pub words: Vec<u32>,
}

/// An assignment that would write in this step.
struct Writer {
    node: usize,
    variable: u16,
    priority: u16,
    value: Value,
}

/// How the children of each node stand.
struct Children {
    finished: [bool; 256],
    resting: [bool; 256],
}

/// The next state, or nothing where no rule applies.
pub fn step(image: &Image, state: &State) -> Option<Step> {
    let children = children(image, state);
    let mut step = Step { next: state.clone(), words: Vec::new() };
    let mut writers = Vec::new();
    let mut moved = false;
    for (i, number) in (0..image.nodes()).zip(0u32..) {
        let node = image.node(i);
        let seen = see(image, state, i, &node, &children);
        let value = if node.kind == ASSIGNMENT { work_out(image, state, node.value) } else { Value::Unknown };
        let Some(Move { places, deed }) = rule(&seen) else { continue };
        moved = true;
        put(&mut step.next, i, places);
        if places.status == WAITING {
            reset_variables(image, &mut step.next, i);
        }
        match deed {
            Deed::Nothing => {}
            Deed::Issue => step.words.push(2 * number),
            Deed::Abort => step.words.push(2 * number + 1),
            Deed::Write => {
                writers.push(Writer { node: i, variable: node.what, priority: node.priority, value });
            }
        }
    }
    settle(&mut step.next, &writers);
    moved.then_some(step)
}

/// One pass tells for every node whether all its children are Finished, or Waiting or Finished.
fn children(image: &Image, state: &State) -> Children {
    let mut children = Children { finished: [true; 256], resting: [true; 256] };
    for i in 1..image.nodes() {
        let parent = usize::from(image.node(i).parent);
        let finished = state.status[i] == FINISHED;
        children.finished[parent] &= finished;
        children.resting[parent] &= finished || state.status[i] == WAITING;
    }
    children
}

/// Every condition is worked out, also those that the node's status does not ask for.
fn see(image: &Image, state: &State, i: usize, node: &Node, children: &Children) -> Seen {
    let condition = |entry: u16, default: bool| match entry {
        NONE => Value::Bool(default),
        entry => work_out(image, state, entry),
    };
    let [skip, start, pre, inv, end, post, repeat] = node.conditions;
    let end_default = node.kind != LIST || children.finished[i];
    Seen {
        kind: node.kind,
        parent: parent_status(state, i, node),
        places: places(state, i),
        children_resting: children.resting[i],
        skip: condition(skip, false).is_true(),
        start: condition(start, true).is_true(),
        pre: condition(pre, true).is_true(),
        inv_false: condition(inv, true).is_false(),
        end: condition(end, end_default).is_true(),
        post: condition(post, true).is_true(),
        repeat: condition(repeat, false).is_true(),
    }
}

/// "Node 0 reads its parent as Executing."
fn parent_status(state: &State, i: usize, node: &Node) -> u8 {
    if i == 0 { EXECUTING } else { state.status[usize::from(node.parent)] }
}

fn places(state: &State, i: usize) -> Places {
    let (status, outcome) = (state.status[i], state.outcome[i]);
    Places { status, outcome, failure: state.failure[i], mark: state.mark[i] }
}

fn put(state: &mut State, i: usize, places: Places) {
    state.status[i] = places.status;
    state.outcome[i] = places.outcome;
    state.failure[i] = places.failure;
    state.mark[i] = places.mark;
}

/// "the one with strictly greatest priority number writes. A tie for greatest: none writes. Every loser gets
/// Failure, WriteLost, whatever Post says."
fn settle(next: &mut State, writers: &[Writer]) {
    for writer in writers {
        let beaten = |rival: &Writer| {
            rival.node != writer.node
                && rival.variable == writer.variable
                && rival.priority >= writer.priority
        };
        if writers.iter().any(beaten) {
            next.outcome[writer.node] = FAILURE;
            next.failure[writer.node] = WRITE_LOST;
        } else {
            let variable = usize::from(writer.variable);
            (next.vartags[variable], next.varbits[variable]) = writer.value.to_cell();
        }
    }
}
