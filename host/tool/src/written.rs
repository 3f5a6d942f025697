//! Expressions and counts written out in words.

use samblokur::{EntryId, ExpressionRecord, Failure, Operator, Outcome, Records, Status};

/// Entries that one text writes out at most; shared operands could make it very long.
const MOST: usize = 300;

/// An expression as a reader would write it.
pub fn written(records: &Records, entry: EntryId) -> String {
    within(records, entry, &mut MOST.clone())
}

fn within(records: &Records, entry: EntryId, left: &mut usize) -> String {
    let Some(e) = records.expression(entry).filter(|_| *left > 0) else { return entry.to_string() };
    *left -= 1;
    let Some(sign) = sign(e.operator()) else { return leaf(&e) };
    let b = if e.operator() == Some(Operator::Not) { None } else { Some(EntryId(e.b)) };
    let mut operand = |entry: EntryId| {
        let text = within(records, entry, left);
        let is_binary = records.expression(entry).is_some_and(|e| e.operator > Operator::Not.number());
        if is_binary { format!("({text})") } else { text }
    };
    let a = operand(EntryId(e.a));
    match b {
        None => format!("NOT {a}"),
        Some(b) => format!("{a} {sign} {}", operand(b)),
    }
}

fn sign(operator: Option<Operator>) -> Option<&'static str> {
    match operator? {
        Operator::Not => Some("NOT"),
        Operator::And => Some("AND"),
        Operator::Or => Some("OR"),
        Operator::Eq => Some("="),
        Operator::Lt => Some("<"),
        Operator::Le => Some("<="),
        Operator::Add => Some("+"),
        Operator::Sub => Some("-"),
        Operator::Mul => Some("*"),
        _ => None,
    }
}

fn leaf(e: &ExpressionRecord) -> String {
    let code = u8::try_from(e.b).ok();
    match e.operator() {
        Some(Operator::Constant) => e.value().to_string(),
        Some(Operator::Variable) => format!("variable {}", e.a),
        Some(Operator::Lookup) => format!("lookup {}", e.a),
        Some(Operator::Status) => tested(e, "status", code.and_then(Status::of).map(Status::word)),
        Some(Operator::Outcome) => tested(e, "outcome", code.and_then(Outcome::of).map(Outcome::word)),
        Some(Operator::Failure) => tested(e, "failure", code.and_then(Failure::of).map(Failure::word)),
        _ => format!("[{e}]"),
    }
}

fn tested(e: &ExpressionRecord, what: &str, code: Option<&str>) -> String {
    format!("{what} of node {} is {}", e.a, code.unwrap_or("no code"))
}

/// A count with its noun.
pub fn counted(count: u64, noun: &str) -> String {
    if count == 1 { format!("1 {noun}") } else { format!("{count} {noun}s") }
}

/// What a plan consists of.
pub fn contents(records: &Records) -> String {
    let counts = records.counts();
    let [n, e, v, l] = [counts.nodes, counts.exprs, counts.vars, counts.looks].map(u64::from);
    let (nodes, exprs) = (counted(n, "node"), counted(e, "expression"));
    format!("{nodes}, {exprs}, {}, {}", counted(v, "variable"), counted(l, "lookup"))
}
