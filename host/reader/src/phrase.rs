//! The expressions of an image written as text.

use crate::writer::{Writer, kind_word};
use samblokur::{EntryId, ExpressionRecord, Failure, Kind, NodeId, Operator, Outcome, Status, Value};
use std::fmt::Write;

impl Writer<'_> {
    /// An expression of a node.
    pub fn expression(&mut self, node: NodeId, entry: EntryId) -> String {
        let mut words = String::new();
        self.entry(node, entry, 1, 0, &mut words);
        words
    }

    /// An entry where operators of strength `least` or more would go on with it, and one of strength `after` follows.
    fn entry(&mut self, node: NodeId, entry: EntryId, least: u8, after: u8, words: &mut String) {
        let Some(e) = self.records.expression(entry).filter(|_| self.left > 0) else {
            return words.push('?');
        };
        self.left -= 1;
        self.uses[entry.place()] += 1;
        match e.operator() {
            Some(Operator::Not) => self.negation(node, &e, least, after, words),
            Some(operator) if operator.number() > Operator::Not.number() => {
                self.two(node, &e, (sign(&e), least, after), words);
            }
            _ => words.push_str(&self.leaf(node, &e, "==")),
        }
    }

    /// NOT; of an equation and of a question it is `!=`.
    fn negation(&mut self, node: NodeId, e: &ExpressionRecord, least: u8, after: u8, words: &mut String) {
        let Some(operand) = self.records.expression(EntryId(e.a)) else { return };
        let operator = operand.operator();
        if matches!(operator, Some(Operator::Status | Operator::Outcome | Operator::Failure)) {
            self.uses[usize::from(e.a)] += 1;
            return words.push_str(&self.leaf(node, &operand, "!="));
        }
        if operator == Some(Operator::Eq) {
            self.uses[usize::from(e.a)] += 1;
            return self.two(node, &operand, ("!=", least, after), words);
        }
        let open = after >= 4;
        words.push_str(if open { "(NOT " } else { "NOT " });
        self.entry(node, EntryId(e.a), 4, if open { 0 } else { after }, words);
        words.push_str(if open { ")" } else { "" });
    }

    /// An operator with two operands; `>` where the right one of LT stands before the left one.
    fn two(
        &mut self,
        node: NodeId,
        e: &ExpressionRecord,
        (sign, least, after): (&str, u8, u8),
        words: &mut String,
    ) {
        let strength = strength(sign);
        let open = strength < least;
        let is_exchanged = sign.starts_with('>');
        let (left, right) = if is_exchanged { (e.b, e.a) } else { (e.a, e.b) };
        words.push_str(if open { "(" } else { "" });
        self.entry(node, EntryId(left), strength, strength, words);
        let _ = write!(words, " {sign} ");
        self.entry(node, EntryId(right), strength + 1, if open { 0 } else { after }, words);
        words.push_str(if open { ")" } else { "" });
    }

    fn leaf(&self, node: NodeId, e: &ExpressionRecord, is: &str) -> String {
        let code = u8::try_from(e.b).unwrap_or(u8::MAX);
        let asked = |what: &str, word: Option<&str>| {
            let word = word.map_or("?".to_string(), code_word);
            format!("{}.{what} {is} {word}", self.path(node, NodeId(e.a)))
        };
        match e.operator() {
            Some(Operator::Variable) => self.variable(e.a).to_string(),
            Some(Operator::Lookup) => {
                let name = self.names.lookups.get(usize::from(e.a));
                format!("LookupNow({})", name.map_or("?", String::as_str))
            }
            Some(Operator::Status) => asked("state", Status::of(code).map(Status::word)),
            Some(Operator::Outcome) => asked("outcome", Outcome::of(code).map(Outcome::word)),
            Some(Operator::Failure) => asked("failure", Failure::of(code).map(Failure::word)),
            _ => match e.value() {
                Value::Unknown => format!("{} UNKNOWN", Kind::of(e.kind).map_or("", kind_word)),
                value => constant(value),
            },
        }
    }
}

/// The sign of an operator with two operands.
fn sign(e: &ExpressionRecord) -> &'static str {
    match e.operator() {
        Some(Operator::And) => "AND",
        Some(Operator::Or) => "OR",
        Some(Operator::Eq) => "==",
        Some(Operator::Lt) if e.a > e.b => ">",
        Some(Operator::Lt) => "<",
        Some(Operator::Le) if e.a > e.b => ">=",
        Some(Operator::Le) => "<=",
        Some(Operator::Add) => "+",
        Some(Operator::Sub) => "-",
        _ => "*",
    }
}

fn strength(sign: &str) -> u8 {
    match sign {
        "OR" => 1,
        "AND" => 2,
        "+" | "-" => 5,
        "*" => 6,
        _ => 4,
    }
}

/// A code's word as the notation has it: IterationEnded is ITERATION_ENDED.
fn code_word(word: &str) -> String {
    let mut words = String::new();
    for letter in word.chars() {
        if letter.is_uppercase() && !words.is_empty() {
            words.push('_');
        }
        words.extend(letter.to_uppercase());
    }
    words
}

/// A constant; a Real as a decimal of at most 15 digits if that writes it, else by its bits.
pub fn constant(value: Value) -> String {
    match value {
        Value::Bool(truth) => truth.to_string(),
        Value::Int(number) => number.to_string(),
        Value::Real(number) => {
            let whole = if number.fract() == 0.0 { ".0" } else { "" };
            let decimal = format!("{number}{whole}");
            if decimal.bytes().filter(u8::is_ascii_digit).count() <= 15 {
                return decimal;
            }
            let bits = number.abs().to_bits();
            let minus = if number.is_sign_negative() { "-" } else { "" };
            format!("{minus}RealBits({bits})")
        }
        Value::Unknown => "UNKNOWN".to_string(),
    }
}
