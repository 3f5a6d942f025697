//! A text gives a drawing's own bytes where the drawing shares no entry: K2 to K5 and K9 as document 01's definitions
//! draw them, and the examples that are texts and sources both.

use reader::read;
use samblokur::{Condition, Kind, NodeId, PlanBuilder};
use std::fs;
use std::path::Path;

fn image(name: &str) -> Vec<u8> {
    let file = Path::new(env!("CARGO_MANIFEST_DIR")).join("texts").join(name);
    let text = fs::read(file).expect("an example text");
    read(&text, 65536).unwrap_or_else(|refused| panic!("{name}: {refused:?}")).image
}

fn drawn(name: &str, plan: &PlanBuilder) {
    assert!(image(name) == plan.image().expect("a small plan"), "{name}");
}

/// "In K1 the children write x := 10 (priority 5), x := 20 (3)", with these priorities.
fn contest(priorities: [u16; 2]) -> PlanBuilder {
    let mut plan = PlanBuilder::new();
    let list = plan.add_list(None);
    let x = plan.add_variable(list, 1);
    plan.add_variable(list, 2);
    for (value, priority) in [10, 20].into_iter().zip(priorities) {
        let value = plan.constant(value);
        let node = plan.add_assignment(list, x, value);
        plan.priority(node, priority);
    }
    plan
}

#[test]
fn k2_to_k5_and_k9_are_the_drawings() {
    drawn("k2.plx", &contest([5, 3]));
    drawn("k3.plx", &contest([5, 5]));
    let mut childless = PlanBuilder::new();
    childless.add_list(None);
    drawn("k4.plx", &childless);
    let mut command = PlanBuilder::new();
    command.add_command(None, 7);
    drawn("k5.plx", &command);
    let mut list = PlanBuilder::new();
    let power = list.add_lookup(Kind::Bool);
    let on = list.lookup(power);
    list.add_list(None);
    list.condition(NodeId(0), Condition::Inv, on);
    list.add_command(NodeId(0), 7);
    drawn("k9.plx", &list);
}

#[test]
fn sheets_are_the_source() {
    let images = example_plans::all().expect("small plans");
    let sheets = images.iter().find(|(name, _)| *name == "sheets.plan").expect("an example");
    assert!(image("sheets.plx") == sheets.1);
}
