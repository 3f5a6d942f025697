//! Three commands one after another: open the drawer (1), take the sheet (2), close the drawer (3).

use samblokur::{Condition, Outcome, PlanBuilder};

pub fn plan() -> PlanBuilder {
    let mut plan = PlanBuilder::new();
    let root = plan.add_list(None);
    let mut before = plan.add_command(root, 1);
    for number in [2, 3] {
        let done = plan.outcome(before, Outcome::Success);
        before = plan.add_command(root, number);
        plan.condition(before, Condition::Start, done);
    }
    plan
}
