//! The node rules: what one node does in a micro step, from what it sees in the state before.

use crate::image::{ASSIGNMENT, COMMAND, LIST};

pub const INACTIVE: u8 = 0;
pub const WAITING: u8 = 1;
pub const EXECUTING: u8 = 2;
pub const FINISHING: u8 = 3;
pub const FAILING: u8 = 4;
pub const ITERATION_ENDED: u8 = 5;
pub const FINISHED: u8 = 6;

const NO_OUTCOME: u8 = 0;
const SUCCESS: u8 = 1;
pub const FAILURE: u8 = 2;
const SKIPPED: u8 = 3;

const NO_FAILURE: u8 = 0;
const PRE: u8 = 1;
const POST: u8 = 2;
const INVARIANT: u8 = 3;
const PARENT: u8 = 4;
pub const WRITE_LOST: u8 = 5;

/// A node's four places.
#[derive(Clone, Copy)]
pub struct Places {
    pub status: u8,
    pub outcome: u8,
    pub failure: u8,
    pub mark: u8,
}

/// What a node sees before the step, with every condition worked out.
pub struct Seen {
    pub kind: u8,
    pub parent: u8,
    pub places: Places,
    pub children_resting: bool,
    pub skip: bool,
    pub start: bool,
    pub pre: bool,
    pub inv_false: bool,
    pub end: bool,
    pub post: bool,
    pub repeat: bool,
}

/// What a node does beside its places.
#[derive(Clone, Copy, PartialEq, Eq)]
pub enum Deed {
    Nothing,
    Issue,
    Abort,
    Write,
}

/// A rule that applies: the node's next places and its deed.
#[derive(Clone, Copy)]
pub struct Move {
    pub places: Places,
    pub deed: Deed,
}

/// The first rule that applies.
pub fn rule(seen: &Seen) -> Option<Move> {
    if seen.places.status != INACTIVE && (seen.parent == INACTIVE || seen.parent == WAITING) {
        return Some(quietly(cleared(seen, INACTIVE)));
    }
    match seen.places.status {
        INACTIVE if seen.parent == EXECUTING => Some(quietly(Places { status: WAITING, ..seen.places })),
        WAITING if seen.parent == EXECUTING => waiting(seen),
        EXECUTING => executing(seen),
        FINISHING => finishing(seen),
        FAILING => failing(seen),
        ITERATION_ENDED => iteration_ended(seen),
        _ => None,
    }
}

fn waiting(seen: &Seen) -> Option<Move> {
    if seen.skip {
        return Some(quietly(Places { status: FINISHED, outcome: SKIPPED, ..seen.places }));
    }
    if !seen.start {
        return None;
    }
    if !seen.pre {
        let failed = Places { status: ITERATION_ENDED, outcome: FAILURE, failure: PRE, ..seen.places };
        return Some(quietly(failed));
    }
    let started = Places { status: EXECUTING, ..seen.places };
    match seen.kind {
        COMMAND => Some(Move { places: Places { mark: 0, ..started }, deed: Deed::Issue }),
        _ => Some(quietly(started)),
    }
}

fn executing(seen: &Seen) -> Option<Move> {
    if let Some(failure) = broken(seen) {
        return Some(broken_off(seen, failure));
    }
    match seen.kind {
        _ if !seen.end => None,
        LIST => Some(quietly(Places { status: FINISHING, ..seen.places })),
        COMMAND if seen.places.mark == 0 => None,
        ASSIGNMENT => Some(Move { places: ended(seen), deed: Deed::Write }),
        _ => Some(quietly(ended(seen))),
    }
}

/// "parent Failing gives failure Parent; else Inv False gives Invariant".
fn broken(seen: &Seen) -> Option<u8> {
    match seen.parent {
        FAILING => Some(PARENT),
        _ if seen.inv_false => Some(INVARIANT),
        _ => None,
    }
}

/// "A list or command goes to Failing, a command not yet returned issues an abort; an assignment goes to
/// IterationEnded without writing."
fn broken_off(seen: &Seen, failure: u8) -> Move {
    let failed = Places { outcome: FAILURE, failure, ..seen.places };
    match seen.kind {
        ASSIGNMENT => quietly(Places { status: ITERATION_ENDED, mark: 0, ..failed }),
        COMMAND if seen.places.mark == 0 => {
            Move { places: Places { status: FAILING, ..failed }, deed: Deed::Abort }
        }
        _ => quietly(Places { status: FAILING, ..failed }),
    }
}

fn finishing(seen: &Seen) -> Option<Move> {
    if let Some(failure) = broken(seen) {
        return Some(quietly(Places { status: FAILING, outcome: FAILURE, failure, ..seen.places }));
    }
    seen.children_resting.then(|| quietly(ended(seen)))
}

/// "list with all children Waiting or Finished, or command returned: IterationEnded, outcome kept."
fn failing(seen: &Seen) -> Option<Move> {
    let over = match seen.kind {
        LIST => seen.children_resting,
        _ => seen.places.mark == 1,
    };
    over.then(|| quietly(Places { status: ITERATION_ENDED, mark: 0, ..seen.places }))
}

fn iteration_ended(seen: &Seen) -> Option<Move> {
    match seen.parent {
        EXECUTING if seen.repeat => Some(quietly(cleared(seen, WAITING))),
        EXECUTING | FINISHING | FAILING => Some(quietly(Places { status: FINISHED, ..seen.places })),
        _ => None,
    }
}

/// "Reaching IterationEnded through End or Finishing gives Success, failure none, if Post is True, else
/// Failure, Post." "The mark clears on leaving for IterationEnded."
fn ended(seen: &Seen) -> Places {
    match seen.post {
        true => Places { status: ITERATION_ENDED, outcome: SUCCESS, failure: NO_FAILURE, mark: 0 },
        false => Places { status: ITERATION_ENDED, outcome: FAILURE, failure: POST, mark: 0 },
    }
}

fn cleared(seen: &Seen, status: u8) -> Places {
    Places { status, outcome: NO_OUTCOME, failure: NO_FAILURE, ..seen.places }
}

fn quietly(places: Places) -> Move {
    Move { places, deed: Deed::Nothing }
}
