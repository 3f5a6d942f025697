//! The image of the generator's plan: entries one an occurrence, an operator after its right operand.

use crate::expr::Expr;
use crate::plan::{Attribute, BOOL, Body, Plan};

const NONE: u16 = 65535;

#[derive(Clone, Copy)]
struct Entry(u8, u8, u16, u16, u64);

/// The image bytes; nothing where the counts do not fit 16-bit offsets.
pub fn image(plan: &Plan) -> Option<Vec<u8>> {
    let mut entries = Vec::new();
    let nodes: Vec<[u16; 12]> = (0..plan.nodes.len()).map(|node| record(plan, node, &mut entries)).collect();
    let counts = [nodes.len(), entries.len(), plan.variables.len(), plan.lookups.len()];
    let mut bytes = Vec::new();
    bytes.extend(header(counts)?.map(u16::to_le_bytes).as_flattened());
    bytes.extend(nodes.iter().flatten().flat_map(|field| field.to_le_bytes()));
    for Entry(operator, kind, a, b, constant) in entries {
        bytes.extend([operator, kind]);
        bytes.extend([a, b, 0].map(u16::to_le_bytes).as_flattened());
        bytes.extend(constant.to_le_bytes());
    }
    for variable in &plan.variables {
        bytes.extend([variable.kind, u8::from(variable.initial.is_some())]);
        bytes.extend([variable.owner as u16, 0, 0].map(u16::to_le_bytes).as_flattened());
        bytes.extend(variable.initial.unwrap_or(0).to_le_bytes());
    }
    bytes.extend(plan.lookups.iter().flat_map(|lookup| [lookup.kind, 0]));
    Some(bytes)
}

fn header(counts: [usize; 4]) -> Option<[u16; 10]> {
    let mut header = [0; 10];
    (header[0], header[9]) = (1, 20);
    for (i, (count, size)) in counts.into_iter().zip([24, 16, 16, 2]).enumerate() {
        header[1 + i] = u16::try_from(count).ok()?;
        header[5 + i] = header[9];
        header[9] = u16::try_from(usize::from(header[9]) + count * size).ok()?;
    }
    Some(header)
}

fn record(plan: &Plan, node: usize, entries: &mut Vec<Entry>) -> [u16; 12] {
    let from = &plan.nodes[node];
    let mut record = [NONE; 12];
    record[0] = from.parent.map_or(NONE, |parent| parent as u16);
    record[2] = 0;
    for attribute in &from.attributes {
        match attribute {
            Attribute::Condition(number, e, _) => record[3 + number] = emit(plan, e, entries),
            Attribute::Priority(priority) => record[2] = *priority,
            Attribute::Variables(_) => {}
        }
    }
    match &from.body {
        Body::List => record[1] = 0,
        Body::Command(command) => (record[1], record[10]) = (1, plan.commands[*command].number),
        Body::Assignment(variable, e) => {
            (record[1], record[10], record[11]) = (2, *variable as u16, emit(plan, e, entries));
        }
    }
    record
}

fn emit(plan: &Plan, e: &Expr, entries: &mut Vec<Entry>) -> u16 {
    let made = match e {
        Expr::Constant(kind, bits) => Entry(0, *kind, 0, 1, *bits),
        Expr::Unknown(kind) => Entry(0, *kind, 0, 0, 0),
        Expr::Variable(number) => Entry(1, plan.variables[*number].kind, *number as u16, 0, 0),
        Expr::Lookup(number, _) => Entry(2, plan.lookups[*number].kind, *number as u16, 0, 0),
        Expr::Question(operator, _, node, code, is_negated) => {
            let asked = Entry(*operator, BOOL, *node as u16, *code, 0);
            if !is_negated { asked } else { Entry(6, BOOL, push(entries, asked), 0, 0) }
        }
        Expr::Not(operand) => Entry(6, BOOL, emit(plan, operand, entries), 0, 0),
        Expr::Two(operator, left, right) => {
            let (a, b) = (emit(plan, left, entries), emit(plan, right, entries));
            two(operator, a, b, entries)
        }
    };
    push(entries, made)
}

/// The last entry of an operator with two operands.
fn two(operator: &str, a: u16, b: u16, entries: &mut Vec<Entry>) -> Entry {
    let kind = entries.get(usize::from(a)).map_or(BOOL, |entry| entry.1);
    match operator {
        "&&" | "AND" => Entry(7, BOOL, a, b, 0),
        "||" | "OR" => Entry(8, BOOL, a, b, 0),
        "==" => Entry(9, BOOL, a, b, 0),
        "!=" => Entry(6, BOOL, push(entries, Entry(9, BOOL, a, b, 0)), 0, 0),
        "<" => Entry(10, BOOL, a, b, 0),
        "<=" => Entry(11, BOOL, a, b, 0),
        ">" => Entry(10, BOOL, b, a, 0),
        ">=" => Entry(11, BOOL, b, a, 0),
        "+" => Entry(12, kind, a, b, 0),
        "-" => Entry(13, kind, a, b, 0),
        _ => Entry(14, kind, a, b, 0),
    }
}

fn push(entries: &mut Vec<Entry>, entry: Entry) -> u16 {
    entries.push(entry);
    (entries.len() - 1) as u16
}
