//! Revisions B and AA: two nodes mark the current sheet in one step, and the higher priority writes.

use samblokur::PlanBuilder;

pub fn plan() -> PlanBuilder {
    let mut plan = PlanBuilder::new();
    let root = plan.add_list(None);
    let current = plan.add_variable(root, 1);
    for (revision, priority) in [(27, 5), (2, 3)] {
        let number = plan.constant(revision);
        let node = plan.add_assignment(root, current, number);
        plan.priority(node, priority);
    }
    plan
}
