//! The check of a plan image: rules 1 to 12, the lowest broken one first, and its lowest record.

use crate::Refused;
use crate::expression::DEEPEST;
use crate::image::{ASSIGNMENT, COMMAND, Expression, HEADER, Image, LIST, NONE, Node, Variable, u16_at};
use crate::value::{BOOL, is_constant, is_kind};
use samblokur_sys::Counts;

pub fn check(bytes: &[u8]) -> Result<Image<'_>, Refused> {
    let image = header(bytes)?;
    first(5, image.nodes(), |i| tree_wrong(&image, i))?;
    first(6, image.nodes(), |i| node_wrong(&image, &image.node(i)))?;
    first(7, image.vars(), |i| variable_wrong(&image, &image.variable(i)))?;
    first(8, image.looks(), |i| !is_kind(image.lookup(i).kind) || image.lookup(i).spare != 0)?;
    first(9, image.exprs(), |i| expression_wrong(&image, i))?;
    let depths = depths(&image);
    first(10, image.exprs(), |i| depths[i] > u16::from(DEEPEST))?;
    first(11, image.nodes(), |i| kind_wrong(&image, &image.node(i)))?;
    let (read, owned) = (read(&image), owned(&image));
    first(12, image.nodes(), |i| used(&image.node(i), &read) & !owned[i] != 0)?;
    Ok(image)
}

/// "with the lowest record number that breaks it".
fn first(number: u32, count: usize, wrong: impl Fn(usize) -> bool) -> Result<(), Refused> {
    match (0u32..).zip(0..count).find(|&(_, i)| wrong(i)) {
        Some((record, _)) => Err(Refused { number, record }),
        None => Ok(()),
    }
}

/// Rules 1 to 4.
fn header(bytes: &[u8]) -> Result<Image<'_>, Refused> {
    if bytes.len() < HEADER {
        return Err(Refused::whole(1));
    }
    if u16_at(bytes, 0) != 1 {
        return Err(Refused::whole(2));
    }
    let [nodes, exprs, vars, looks] = [2, 4, 6, 8].map(|at| u16_at(bytes, at));
    if nodes == 0 || nodes > 256 || exprs > 2048 || vars > 128 || looks > 64 {
        return Err(Refused::whole(3));
    }
    let image = Image { bytes, counts: Counts { nodes, exprs, vars, looks } };
    let told = [10, 12, 14, 16, 18].map(|at| usize::from(u16_at(bytes, at)));
    if told != image.offsets() || told[4] != bytes.len() {
        return Err(Refused::whole(4));
    }
    Ok(image)
}

/// "Node 0 has parent 65535; any other parent is a list with a lower number."
fn tree_wrong(image: &Image, i: usize) -> bool {
    let parent = image.node(i).parent;
    if i == 0 {
        return parent != NONE;
    }
    usize::from(parent) >= i || image.node(usize::from(parent)).kind != LIST
}

fn node_wrong(image: &Image, node: &Node) -> bool {
    let counts = image.counts;
    let fields_wrong = match node.kind {
        LIST => node.what != NONE || node.value != NONE,
        COMMAND => node.what == NONE || node.value != NONE,
        ASSIGNMENT => node.what >= counts.vars || node.value >= counts.exprs,
        _ => true,
    };
    node.spare != 0 || fields_wrong || node.conditions.iter().any(|&c| c != NONE && c >= counts.exprs)
}

/// "initial value (as a constant; 0 if not known)".
fn variable_wrong(image: &Image, variable: &Variable) -> bool {
    let initial_right = match variable.known {
        0 => variable.initial == 0,
        1 => is_constant(variable.kind, variable.initial),
        _ => false,
    };
    !is_kind(variable.kind) || variable.spare != 0 || variable.owner >= image.counts.nodes || !initial_right
}

fn expression_wrong(image: &Image, i: usize) -> bool {
    let e = image.expression(i);
    let right = match e.operator {
        0 => constant_right(&e),
        1 => e.a < image.counts.vars && e.b == 0 && e.kind == image.variable(usize::from(e.a)).kind,
        2 => e.a < image.counts.looks && e.b == 0 && e.kind == image.lookup(usize::from(e.a)).kind,
        3 => e.a < image.counts.nodes && e.b <= 6 && e.kind == BOOL,
        4 => e.a < image.counts.nodes && e.b <= 3 && e.kind == BOOL,
        5 => e.a < image.counts.nodes && e.b <= 5 && e.kind == BOOL,
        6 => usize::from(e.a) < i && e.b == 0 && e.kind == BOOL && kind_of(image, e.a) == BOOL,
        7..=14 => usize::from(e.a) < i && usize::from(e.b) < i && two_operands_right(image, &e),
        _ => false,
    };
    e.spare != 0 || (e.operator != 0 && e.constant != 0) || !right
}

/// "constant (b = 1 known, b = 0 Unknown with constant 0)".
fn constant_right(e: &Expression) -> bool {
    let value_right = match e.b {
        0 => e.constant == 0,
        1 => is_constant(e.kind, e.constant),
        _ => false,
    };
    e.a == 0 && is_kind(e.kind) && value_right
}

/// "6 to 8 take Bool. 9 takes two of one kind. 10 to 14 take two Int or two Real; 12 to 14 keep that kind".
fn two_operands_right(image: &Image, e: &Expression) -> bool {
    let (a, b) = (kind_of(image, e.a), kind_of(image, e.b));
    match e.operator {
        7 | 8 => a == BOOL && b == BOOL && e.kind == BOOL,
        9 => a == b && e.kind == BOOL,
        10 | 11 => a == b && a != BOOL && e.kind == BOOL,
        _ => a == b && a != BOOL && e.kind == a,
    }
}

fn kind_of(image: &Image, entry: u16) -> u8 {
    image.expression(usize::from(entry)).kind
}

/// "A leaf has depth 1, an operator one more than its deepest operand".
fn depths(image: &Image) -> Vec<u16> {
    let mut depths: Vec<u16> = Vec::with_capacity(image.exprs());
    for i in 0..image.exprs() {
        let e = image.expression(i);
        let deepest = operands(&e).map(|operand| depths[operand]).max().unwrap_or(0);
        depths.push(deepest + 1);
    }
    depths
}

/// The operand entries of an entry: none for a leaf, one for NOT, else two.
fn operands(e: &Expression) -> impl Iterator<Item = usize> {
    let count = match e.operator {
        0..=5 => 0,
        6 => 1,
        _ => 2,
    };
    [e.a, e.b].into_iter().take(count).map(usize::from)
}

/// "condition not Bool, value kind not the target's".
fn kind_wrong(image: &Image, node: &Node) -> bool {
    let condition_wrong = node.conditions.iter().any(|&c| c != NONE && kind_of(image, c) != BOOL);
    let value_wrong =
        node.kind == ASSIGNMENT && kind_of(image, node.value) != image.variable(usize::from(node.what)).kind;
    condition_wrong || value_wrong
}

/// For each entry the variables that it reads, a bit each.
fn read(image: &Image) -> Vec<u128> {
    let mut read: Vec<u128> = Vec::with_capacity(image.exprs());
    for i in 0..image.exprs() {
        let e = image.expression(i);
        let own = if e.operator == 1 { 1 << e.a } else { 0 };
        read.push(operands(&e).map(|operand| read[operand]).fold(own, |all, one| all | one));
    }
    read
}

/// For each node the variables whose owner is "it or above it", a bit each.
fn owned(image: &Image) -> Vec<u128> {
    let mut owned = vec![0u128; image.nodes()];
    for v in 0..image.vars() {
        owned[usize::from(image.variable(v).owner)] |= 1 << v;
    }
    for i in 1..image.nodes() {
        owned[i] |= owned[usize::from(image.node(i).parent)];
    }
    owned
}

/// The variables that a node reads or assigns, a bit each.
fn used(node: &Node, read: &[u128]) -> u128 {
    let conditions = node.conditions.iter().filter(|&&c| c != NONE);
    let used = conditions.map(|&c| read[usize::from(c)]).fold(0, |all, one| all | one);
    match node.kind {
        ASSIGNMENT => used | read[usize::from(node.value)] | 1 << node.what,
        _ => used,
    }
}
