//! The largest plan.

use crate::expr::Expr;
use crate::plan::{Attribute, BOOL, Body, INT, Lookup, Node, Plan, Variable};
use differ::Random;

/// A plan at every limit: 256 nodes, 2048 entries, 128 variables, 64 lookups.
pub fn largest(random: &mut Random) -> Plan {
    let lookup = |l| Lookup { name: format!("l{l}"), kind: INT };
    let variable = |v| Variable { name: format!("v{v}"), kind: INT, owner: 0, initial: Some(random.bits()) };
    let mut plan = Plan {
        lookups: (0..64).map(lookup).collect(),
        variables: (0..128).map(variable).collect(),
        ..Plan::default()
    };
    let attributes = vec![Attribute::Variables((0..128).collect())];
    plan.nodes.push(Node { name: Some("Root".to_string()), parent: None, attributes, body: Body::List });
    for number in 1..256 {
        // 254 nodes of 8 entries and one of 16
        let three = Expr::Two("==", Box::new(sum(random, 2)), Box::new(sum(random, 1)));
        let mut attributes = vec![
            Attribute::Condition(2, Expr::Not(Box::new(three)), false),
            Attribute::Condition(1, Expr::Constant(BOOL, 1), false),
        ];
        if number == 255 {
            let five = Expr::Two("<", Box::new(sum(random, 3)), Box::new(sum(random, 1)));
            attributes.push(Attribute::Condition(4, Expr::Not(Box::new(five)), false));
        }
        let value = Expr::Lookup(number % 64, false);
        let body = Body::Assignment(random.below(128), value);
        plan.nodes.push(Node { name: Some(format!("n{number}")), parent: Some(0), attributes, body });
    }
    plan
}

/// A sum of so many variables.
fn sum(random: &mut Random, count: usize) -> Expr {
    let first = Expr::Variable(random.below(128));
    (1..count)
        .fold(first, |sum, _| Expr::Two("+", Box::new(sum), Box::new(Expr::Variable(random.below(128)))))
}
