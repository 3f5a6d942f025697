//! Names that are not in order: undeclared, and declared twice.

use crate::known::Known;
use crate::pair::{Difference, Pair};
use crate::plan::{Attribute, Command, Plan};
use crate::print::tokens;
use crate::spell::spell;
use differ::Random;

/// Names that nothing declares: a command, a target, a lookup, a node, and a part of a path.
pub fn undeclared(random: &mut Random, pair: &mut Pair, tokens: &[String]) -> Result<(), Difference> {
    let follows = |at: usize, two: [&str; 2]| at > 1 && tokens[at - 2..at] == two;
    let is_use = |at: &usize| {
        let heads = [["Command", ":"], ["Assignment", ":"], ["LookupNow", "("], ["LookupOnChange", "("]];
        heads.into_iter().any(|two| follows(*at, two))
    };
    for at in (0..tokens.len()).filter(is_use).take(4) {
        let mut other = tokens.to_vec();
        other[at] = "Nowhere".to_string();
        refused_there(random, pair, &other, at)?;
    }
    let is_path =
        |at: &usize| *at > 1 && tokens[at - 1] == "." && ["state", "outcome"].contains(&tokens[*at].as_str());
    for at in (0..tokens.len()).filter(is_path).take(3) {
        let mut other = tokens.to_vec();
        other.splice(at..at, ["Nowhere".to_string(), ".".to_string()]);
        refused_there(random, pair, &other, at)?;
    }
    Ok(())
}

/// 42 at a token.
fn refused_there(
    random: &mut Random,
    pair: &mut Pair,
    tokens: &[String],
    at: usize,
) -> Result<(), Difference> {
    let spelled = spell(random, tokens);
    pair.read(&spelled.text, &Known::Refused(42, spelled.places[at] as u64)).map(|_| ())
}

/// The second declaration of a command, a lookup, a variable of one node or a child of one list.
pub fn twice(random: &mut Random, pair: &mut Pair, plan: &Plan) -> Result<(), Difference> {
    if !plan.commands.is_empty() {
        let mut other = plan.clone();
        other.commands.push(Command { name: plan.commands[0].name.clone(), number: 7 });
        let tokens = tokens(random, &other);
        let is_last = |at: &usize| tokens[at + 2] == "=" && tokens[*at] == "Command";
        let last = (0..tokens.len() - 2).rfind(is_last).unwrap_or(0);
        refused_there(random, pair, &tokens, last + 1)?;
    }
    if !plan.lookups.is_empty() {
        let mut other = plan.clone();
        other.lookups.push(plan.lookups[0].clone());
        let tokens = tokens(random, &other);
        let last = tokens.iter().rposition(|token| token == "Lookup").unwrap_or(0);
        refused_there(random, pair, &tokens, last + 1)?;
    }
    for other in [twice_a_variable(plan), twice_a_child(plan)].into_iter().flatten() {
        let tokens = tokens(random, &other);
        pair.read(&spell(random, &tokens).text, &Known::Number(42))?;
    }
    Ok(())
}

/// The last variable of a plan once more, in a block of its own or beside it.
fn twice_a_variable(plan: &Plan) -> Option<Plan> {
    let mut other = plan.clone();
    let again = plan.variables.last()?.clone();
    let attribute = Attribute::Variables(vec![plan.variables.len()]);
    other.nodes[again.owner].attributes.push(attribute);
    other.variables.push(again);
    Some(other)
}

/// A child with the name of one before it.
fn twice_a_child(plan: &Plan) -> Option<Plan> {
    let earlier = |node: usize| {
        let parent = plan.nodes[node].parent?;
        plan.children(parent)
            .take_while(|&other| other < node)
            .find_map(|other| plan.nodes[other].name.clone())
    };
    let (node, name) = (0..plan.nodes.len()).find_map(|node| Some((node, earlier(node)?)))?;
    let mut other = plan.clone();
    other.nodes[node].name = Some(name);
    Some(other)
}
