//! Texts at the limits: levels, counts, room.

use crate::image::image;
use crate::known::{Known, of_plan};
use crate::largest::largest;
use crate::make::{Shape, plan};
use crate::pair::{Difference, Pair, ROOM};
use crate::plan::{Attribute, Body};
use crate::print::tokens;
use crate::spell::spell;
use differ::Random;

/// Levels 16 and 17, the largest plan, and one more of each of its counts.
pub fn limits(random: &mut Random, pair: &mut Pair) -> Result<(), Difference> {
    for round in 0..120 {
        let mut plan = plan(random, Shape { nodes: 1, careless: 0, deep: 2 });
        for level in 1..17 {
            if level == 16 {
                let tokens = tokens(random, &plan);
                pair.read(&spell(random, &tokens).text, &of_plan(&plan))?;
            }
            let mut node = plan.nodes[level - 1].clone();
            (node.parent, node.attributes, node.body) = (Some(level - 1), Vec::new(), Body::List);
            plan.nodes.push(node);
        }
        let tokens = tokens(random, &plan);
        let spelled = spell(random, &tokens);
        pair.read(&spelled.text, &Known::Number(41))?;
        if round % 4 == 0 {
            largest_plans(random, pair)?;
        }
    }
    Ok(())
}

fn largest_plans(random: &mut Random, pair: &mut Pair) -> Result<(), Difference> {
    let whole = largest(random);
    assert_eq!(image(&whole).map(|image| image.len()), Some(ROOM), "the largest plan is not the largest");
    for more in 0..5 {
        let mut plan = whole.clone();
        match more {
            0 => {}
            1 => plan.nodes.push(plan.nodes[255].clone()),
            2 => plan.lookups.push(plan.lookups[0].clone()),
            3 => plan.variables.push(plan.variables[0].clone()),
            _ => {
                let again = plan.nodes[255].attributes[1].clone();
                plan.nodes[0].attributes.push(again);
            }
        }
        if let Some(node) = plan.nodes.get_mut(256) {
            (node.name, node.attributes) = (None, Vec::new());
        }
        if let Some(lookup) = plan.lookups.get_mut(64) {
            lookup.name = "another".to_string();
        }
        if let Some(variable) = plan.variables.get_mut(128) {
            variable.name = "another".to_string();
            plan.nodes[0].attributes.push(Attribute::Variables(vec![128]));
        }
        let known = if more == 0 { of_plan(&plan) } else { Known::Refused(3, 0) };
        let tokens = tokens(random, &plan);
        pair.read(&spell(random, &tokens).text, &known)?;
    }
    Ok(())
}
