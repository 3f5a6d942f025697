//! A child that counts to three: it repeats while the count is below 3.

use samblokur::{Condition, PlanBuilder};

pub fn plan() -> PlanBuilder {
    let mut plan = PlanBuilder::new();
    let root = plan.add_list(None);
    let count = plan.add_variable(root, 0);
    let now = plan.variable(count);
    let one = plan.constant(1);
    let more = plan.add(now, one);
    let child = plan.add_assignment(root, count, more);
    let three = plan.constant(3);
    let below = plan.lt(now, three);
    plan.condition(child, Condition::Repeat, below);
    plan
}
