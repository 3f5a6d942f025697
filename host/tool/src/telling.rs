//! A turn told in words.

use crate::turn::Turn;
use crate::written::counted;
use reader::Names;
use samblokur::{Body, Ending, Failure, NodeId, Outcome, Records, Session, Status, VariableId, Word};
use std::fmt::Write;

/// Statuses of one node that a line shows at most.
const MOST: usize = 10;

/// Steps, words, the statuses that each node went through, and the variables that changed.
pub fn tell(turn: &Turn, session: &Session, names: &Names, told: &mut String) {
    let steps = counted(turn.steps.len() as u64, "step");
    let ending = match turn.ending {
        Ending::Quiet => "Quiet",
        Ending::Spent => "Spent (the budget is used and a rule still applies)",
    };
    let _ = writeln!(told, "{}: {steps}, {ending}", turn.cause);
    words(turn, &session.plan().records(), names, told);
    for node in (0..session.plan().counts().nodes).map(NodeId) {
        statuses(turn, session, names, node, told);
    }
    for change in changes(turn, session, names) {
        let _ = writeln!(told, "  {change}");
    }
}

/// The variables that a turn changed.
pub fn changes(turn: &Turn, session: &Session, names: &Names) -> Vec<String> {
    let earlier = Session::kept(session.plan(), turn.before.clone(), session.card());
    let change = |variable| {
        let (before, after) = (earlier.variable(variable)?, session.variable(variable)?);
        (before != after).then(|| format!("{}: {before} → {after}", names.variable(variable)))
    };
    (0..session.plan().counts().vars).map(VariableId).filter_map(change).collect()
}

/// Where the plan stands after its last turn.
pub fn end(session: &Session, names: &Names, told: &mut String) {
    let status = session.status(NodeId(0)).map_or("?", Status::word);
    let (root, upshot) = (names.node(NodeId(0)), upshot(session, NodeId(0)));
    let _ = match upshot.is_empty() {
        true => writeln!(told, "at the end {root} is {status}"),
        false => writeln!(told, "at the end {root} is {status}: {upshot}"),
    };
}

fn words(turn: &Turn, records: &Records, names: &Names, told: &mut String) {
    for (number, step) in (1..).zip(&turn.steps) {
        for word in &step.words {
            let node = word.node();
            let command = names.command_of(node, records.node(node).map_or(0, |record| record.what));
            let done = match word {
                Word::Issue(_) => "issued",
                Word::Abort(_) => "aborted",
            };
            let _ = writeln!(told, "  step {number}: {done} {command} of {}", names.node(node));
        }
    }
}

fn statuses(turn: &Turn, session: &Session, names: &Names, node: NodeId, told: &mut String) {
    let first = turn.before.status[node.place()];
    let later = turn.steps.iter().filter_map(|step| step.statuses.get(node.place()).copied());
    let mut path = vec![first];
    path.extend(later);
    path.dedup();
    if path.len() == 1 {
        return;
    }
    let upshot = Some(upshot(session, node)).filter(|upshot| !upshot.is_empty());
    let upshot = upshot.map_or(String::new(), |upshot| format!(" ({upshot})"));
    let _ = writeln!(told, "  {}: {}{upshot}", names.node(node), shortened(&path));
}

/// A long path keeps its first statuses and its last ones; what is left out is worth its words.
fn shortened(path: &[u8]) -> String {
    let word = |&status: &u8| Status::of(status).map_or("?", Status::word).to_string();
    let mut words: Vec<String> = path.iter().map(word).collect();
    if words.len() > MOST + 3 {
        let moves = format!("… {} moves …", words.len() - MOST + 1);
        let (from, to) = (MOST - 3, words.len() - 3);
        words.splice(from..to, [moves]);
    }
    words.join(" → ")
}

/// A node's outcome and failure in words; nothing while it has none.
pub fn upshot(session: &Session, node: NodeId) -> String {
    match (session.outcome(node), session.failure(node)) {
        (Some(Outcome::None) | None, _) => String::new(),
        (Some(outcome), Some(Failure::None) | None) => outcome.to_string(),
        (Some(outcome), Some(failure)) => format!("{outcome}, {failure}"),
    }
}

/// A short name of what a node is.
pub fn name(records: &Records, names: &Names, node: NodeId) -> String {
    let called = names.node(node);
    let Some(record) = records.node(node) else { return called };
    match record.body() {
        Some(Body::List) => format!("{called}: list"),
        Some(Body::Command) => format!("{called}: {}", names.command_of(node, record.what)),
        _ => format!("{called}: sets {}", names.variable(VariableId(record.what))),
    }
}
