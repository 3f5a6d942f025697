//! A sheet is fetched and scanned, and its revision becomes the current one.
//!
//! Lookups: power and asked for (Bool), the scan's sharpness (Real), the revision read (Int).
//! Commands: 1 open the drawer, 2 scan the sheet, 3 close the drawer.

use samblokur::{Condition, Kind, LookupId, NodeId, Outcome, PlanBuilder, Status, VariableId};

const POWER: LookupId = LookupId(0);
const ASKED: LookupId = LookupId(1);
const SHARPNESS: LookupId = LookupId(2);
const REVISION: LookupId = LookupId(3);

pub fn plan() -> PlanBuilder {
    let mut plan = PlanBuilder::new();
    for kind in [Kind::Bool, Kind::Bool, Kind::Real, Kind::Int] {
        plan.add_lookup(kind);
    }
    let root = plan.add_list(None);
    let current = plan.add_variable(root, 2);
    let on = plan.lookup(POWER);
    plan.condition(root, Condition::Inv, on);

    let open = plan.add_command(root, 1);
    let is_asked = plan.lookup(ASKED);
    plan.condition(open, Condition::Start, is_asked);

    let scan = plan.add_command(root, 2);
    start_after(&mut plan, scan, open);
    let enough = plan.constant(0.8);
    let sharp = plan.lookup(SHARPNESS);
    let is_sharp = plan.le(enough, sharp);
    plan.condition(scan, Condition::Post, is_sharp);

    let marked = mark(&mut plan, root, current, scan);
    close(&mut plan, root, marked);
    plan
}

/// Two nodes mark the current revision in one step: the one read has priority over the one after the old.
fn mark(plan: &mut PlanBuilder, root: NodeId, current: VariableId, scan: NodeId) -> NodeId {
    let read = plan.lookup(REVISION);
    let (old, one) = (plan.variable(current), plan.constant(1));
    let next = plan.add(old, one);
    let [marked, _] = [(read, 5), (next, 3)].map(|(value, priority)| {
        let node = plan.add_assignment(root, current, value);
        plan.priority(node, priority);
        start_after(plan, node, scan);
        node
    });
    marked
}

/// A list that tries three times whether the drawer is free, then closes it.
fn close(plan: &mut PlanBuilder, root: NodeId, marked: NodeId) {
    let closing = plan.add_list(root);
    let done = plan.status(marked, Status::Finished);
    plan.condition(closing, Condition::Start, done);
    let tries = plan.add_variable(closing, 0);
    let (now, one, three) = (plan.variable(tries), plan.constant(1), plan.constant(3));
    let more = plan.add(now, one);
    let trying = plan.add_assignment(closing, tries, more);
    let below = plan.lt(now, three);
    plan.condition(trying, Condition::Repeat, below);
    let shut = plan.add_command(closing, 3);
    let tried = plan.eq(now, three);
    plan.condition(shut, Condition::Start, tried);
}

fn start_after(plan: &mut PlanBuilder, node: NodeId, before: NodeId) {
    let done = plan.outcome(before, Outcome::Success);
    plan.condition(node, Condition::Start, done);
}
