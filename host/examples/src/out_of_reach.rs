//! A plan that the check refuses (12 Reach): a node reads a variable that its sister owns.

use samblokur::{Condition, PlanBuilder};

pub fn plan() -> PlanBuilder {
    let mut plan = PlanBuilder::new();
    let root = plan.add_list(None);
    let sister = plan.add_list(root);
    let reader = plan.add_command(root, 1);
    let open = plan.add_variable(sister, true);
    let read = plan.variable(open);
    plan.condition(reader, Condition::Pre, read);
    plan
}
