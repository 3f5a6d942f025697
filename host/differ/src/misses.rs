//! Near-misses: an admitted plan with one thing wrong, for each of the rules 5 to 12.

use crate::draft::{Draft, Expression, Lookup, NONE, Variable};
use crate::random::Random;

const NAN: u64 = 0x7FF8_0000_0000_0000;
const INFINITE: u64 = 0xFFF0_0000_0000_0000;

/// Breaks one of the rules, or comes close to breaking it.
pub fn miss(random: &mut Random, draft: &mut Draft) {
    let breaking: [fn(&mut Random, &mut Draft); 9] =
        [tree, node, variable, lookup, expression, operand, deep, kind, reach];
    random.pick(&breaking)(random, draft);
}

fn tree(random: &mut Random, draft: &mut Draft) {
    let count = draft.nodes.len() as u16;
    let i = random.half(count);
    let any = random.half(count);
    draft.nodes[usize::from(i)].parent = random.pick(&[i, i.wrapping_add(1), 0, NONE, any]);
}

fn node(random: &mut Random, draft: &mut Draft) {
    let (exprs, vars) = (draft.exprs.len() as u16, draft.vars.len() as u16);
    let i = random.below(draft.nodes.len());
    let node = &mut draft.nodes[i];
    match random.below(6) {
        0 => node.body = 3 + random.byte(3),
        1 => node.spare = 1 + random.byte(200),
        2 => node.conditions[random.below(7)] = random.pick(&[exprs, exprs + 1, NONE - 1, NONE]),
        3 => node.what = random.pick(&[vars, 0, NONE]),
        4 => node.value = random.pick(&[exprs, 0, NONE]),
        _ => node.body = random.byte(3),
    }
}

fn variable(random: &mut Random, draft: &mut Draft) {
    if draft.vars.is_empty() {
        draft.vars.push(Variable { kind: 2, known: 1, owner: 0, spare: 0, initial: 0 });
    }
    let (nodes, i) = (draft.nodes.len() as u16, random.below(draft.vars.len()));
    let variable = &mut draft.vars[i];
    match random.below(6) {
        0 => variable.kind = random.byte(5),
        1 => variable.known = random.byte(4),
        2 => variable.owner = random.pick(&[nodes, nodes + 1, NONE, 0]),
        3 => variable.spare = 1 << random.below(32),
        4 => variable.initial = random.pick(&[NAN, INFINITE, 2, 1]),
        _ => variable.known ^= 1,
    }
}

fn lookup(random: &mut Random, draft: &mut Draft) {
    if draft.looks.is_empty() {
        draft.looks.push(Lookup { kind: 0, spare: 0 });
    }
    let i = random.below(draft.looks.len());
    match random.below(3) {
        0 => draft.looks[i].spare = 1 + random.byte(255),
        _ => draft.looks[i].kind = random.byte(6),
    }
}

/// Gives the plan an entry where it has none, and answers a random one.
fn some_entry(random: &mut Random, draft: &mut Draft) -> usize {
    if draft.exprs.is_empty() {
        draft.push(Expression { b: 1, ..Expression::default() });
    }
    random.below(draft.exprs.len())
}

fn expression(random: &mut Random, draft: &mut Draft) {
    let i = some_entry(random, draft);
    let e = &mut draft.exprs[i];
    match random.below(5) {
        0 => e.operator = random.byte(18),
        1 => e.kind = random.byte(5),
        2 => e.spare = 1 << random.below(16),
        3 => e.constant = random.pick(&[NAN, INFINITE, 2, 1, 0]),
        _ => e.b = e.b.wrapping_add(random.half(8)),
    }
}

fn operand(random: &mut Random, draft: &mut Draft) {
    let i = some_entry(random, draft);
    let [n, v, l] = [draft.nodes.len(), draft.vars.len(), draft.looks.len()].map(|count| count as u16);
    let any = random.half(i as u16 + 1);
    let number = random.pick(&[i as u16, i as u16 + 1, n, v, l, 0, any]);
    let e = &mut draft.exprs[i];
    if random.chance(60) { e.a = number } else { e.b = number }
}

/// A chain of NOTs, 11 to 14 deep.
fn deep(random: &mut Random, draft: &mut Draft) {
    let mut entry = draft.push(Expression { b: 1, ..Expression::default() });
    for _ in 0..10 + random.below(4) {
        entry = draft.push(Expression { operator: 6, a: entry, ..Expression::default() });
    }
    let i = random.below(draft.nodes.len());
    draft.nodes[i].conditions[random.below(7)] = entry;
}

/// A condition or value of a random kind.
fn kind(random: &mut Random, draft: &mut Draft) {
    let kind = random.byte(3);
    let entry = draft.push(Expression { kind, b: 1, ..Expression::default() });
    let i = random.below(draft.nodes.len());
    let node = &mut draft.nodes[i];
    if node.body == 2 && random.chance(50) {
        node.value = entry;
    } else {
        node.conditions[random.below(7)] = entry;
    }
}

/// A variable of one node that another reads or assigns, or a tree over the variables of several nodes.
fn reach(random: &mut Random, draft: &mut Draft) {
    let i = random.below(draft.nodes.len());
    let variable = draft.vars.len() as u16;
    let mut entry = owned(random, draft);
    for _ in 0..random.below(4) {
        let other = owned(random, draft);
        entry = draft.push(Expression { operator: 7, a: entry, b: other, ..Expression::default() });
    }
    let value = draft.push(Expression { b: 1, ..Expression::default() });
    let node = &mut draft.nodes[i];
    if node.body == 2 && random.chance(50) {
        (node.what, node.value) = (variable, value);
    } else {
        node.conditions[random.below(7)] = entry;
    }
}

/// An entry that reads a new variable of some node.
fn owned(random: &mut Random, draft: &mut Draft) -> u16 {
    let (owner, variable) = (random.half(draft.nodes.len() as u16), draft.vars.len() as u16);
    draft.vars.push(Variable { kind: 0, known: 1, owner, spare: 0, initial: 1 });
    draft.push(Expression { operator: 1, a: variable, ..Expression::default() })
}
