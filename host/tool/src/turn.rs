//! One turn seen micro step by micro step: it begins with budget 1 and is run with budget 1 again and again.

use samblokur::{Body, Ending, Failure, NodeId, Refusal, Session, State, Status, Word};

/// What a micro step did, as it shows from outside.
pub struct Step {
    /// The status of each node after the step.
    pub statuses: Vec<u8>,
    pub words: Vec<Word>,
    pub writes: Vec<Write>,
}

/// An assignment that ended in a step: it wrote, or lost its write.
pub struct Write {
    pub node: NodeId,
    pub lost: bool,
}

/// The run after the fresh start, or a turn with its event.
pub struct Turn {
    pub cause: String,
    pub before: State,
    pub ending: Ending,
    pub steps: Vec<Step>,
}

/// Runs until quiet, or until the budget is used; an event enters with the first call.
pub fn turn(
    session: &mut Session,
    mut event: Option<&[u8]>,
    cause: String,
    budget: u16,
) -> Result<Turn, Refusal> {
    let before = session.state().clone();
    let mut steps = Vec::new();
    // One step issues at most one word a node.
    let mut list = [0; 256];
    loop {
        let allowed = u16::from(steps.len() < usize::from(budget));
        let old = session.state().clone();
        let run = match event.take() {
            Some(event) => session.turn(event, allowed, &mut list, 0)?,
            None => session.run(allowed, &mut list, 0)?,
        };
        if run.steps == 1 {
            steps.push(step(&old, session, &list[..run.next]));
        }
        if run.ending == Ending::Quiet || allowed == 0 {
            return Ok(Turn { cause, before, ending: run.ending, steps });
        }
    }
}

fn step(old: &State, session: &Session, words: &[u32]) -> Step {
    let nodes = session.plan().counts().nodes;
    Step {
        statuses: session.state().status[..usize::from(nodes)].to_vec(),
        words: words.iter().copied().map(Word::of).collect(),
        writes: (0..nodes).filter_map(|node| write(old, session, NodeId(node))).collect(),
    }
}

/// An assignment that goes from Executing to IterationEnded writes, unless it fails by Parent or Invariant.
fn write(old: &State, session: &Session, node: NodeId) -> Option<Write> {
    let body = session.plan().records().node(node)?.body()?;
    let was_executing = old.status[node.place()] == Status::Executing.number();
    if body != Body::Assignment || !was_executing || session.status(node)? != Status::IterationEnded {
        return None;
    }
    match session.failure(node)? {
        Failure::WriteLost => Some(Write { node, lost: true }),
        Failure::None | Failure::Post => Some(Write { node, lost: false }),
        Failure::Pre | Failure::Invariant | Failure::Parent => None,
    }
}
