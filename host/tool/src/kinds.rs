//! The check's refusals of a text's image, told at their place in the text: kinds (9, 11) and depth (10).

use crate::said::{Said, quoted};
use reader::{Reading, Refused, Span};
use samblokur::{Body, Condition, EntryId, ExpressionRecord, Kind, NodeId, Operator, Records, VariableId};

pub fn said(text: &[u8], refused: &Refused, reading: &Reading) -> Said {
    let it = It { text, reading, records: Records::new(&reading.image) };
    let number = u16::try_from(refused.place).unwrap_or(u16::MAX);
    match refused.number {
        9 => it.of_expression(EntryId(number)),
        10 => Said::new("this expression is over 12 deep", it.span(EntryId(number)))
            .hint("assign a part of it to a variable first"),
        _ => it.of_node(NodeId(number)),
    }
}

struct It<'t> {
    text: &'t [u8],
    reading: &'t Reading,
    records: Records<'t>,
}

impl It<'_> {
    fn span(&self, entry: EntryId) -> Span {
        self.reading.spans.entries.get(entry.place()).cloned().unwrap_or(0..0)
    }

    fn kind(&self, entry: EntryId) -> Option<Kind> {
        self.records.expression(entry).and_then(|record| Kind::of(record.kind))
    }

    /// What an entry is called: a variable and a lookup by name, else as it is written.
    fn called(&self, entry: EntryId) -> String {
        let spans = &self.reading.spans;
        let name = self.records.expression(entry).and_then(|e| match e.operator()? {
            Operator::Variable => spans.variables.get(usize::from(e.a)),
            Operator::Lookup => spans.lookups.get(usize::from(e.a)),
            _ => None,
        });
        match name {
            Some(name) => String::from_utf8_lossy(&self.text[name.clone()]).into_owned(),
            None => quoted(self.text, &self.span(entry)).trim_matches('\'').to_string(),
        }
    }

    /// How a whole number is written as a Real.
    fn as_real(&self, entry: EntryId) -> Option<String> {
        let e = self.records.expression(entry)?;
        let is_whole = e.operator() == Some(Operator::Constant) && e.b == 1 && e.kind == Kind::Int.number();
        is_whole.then(|| format!("{}.0", self.called(entry).replace(' ', "")))
    }

    /// 9: an operand is of another kind than its operator takes.
    fn of_expression(&self, entry: EntryId) -> Said {
        let span = self.span(entry);
        let Some(e) = self.records.expression(entry) else { return Said::new("a kind is wrong", span) };
        let (a, b) = (EntryId(e.a), EntryId(e.b));
        let what = match e.operator() {
            Some(Operator::Not) => self.not_boolean("NOT takes a Boolean", &[a]),
            Some(Operator::And) => self.not_boolean("AND takes Booleans", &[a, b]),
            Some(Operator::Or) => self.not_boolean("OR takes Booleans", &[a, b]),
            Some(Operator::Eq) => self.two_kinds(a, b),
            _ => self.numbers(&e),
        };
        Said::new(what, span)
    }

    fn not_boolean(&self, takes: &str, operands: &[EntryId]) -> String {
        let wrong = operands.iter().find(|&&operand| self.kind(operand) != Some(Kind::Bool));
        let Some(&wrong) = wrong else { return takes.to_string() };
        format!("{takes}, and {} is {}", self.called(wrong), a_kind(self.kind(wrong)))
    }

    /// A comparison or an operation of numbers.
    fn numbers(&self, e: &ExpressionRecord) -> String {
        let (a, b) = (EntryId(e.a), EntryId(e.b));
        match [a, b].into_iter().find(|&operand| self.kind(operand) == Some(Kind::Bool)) {
            Some(truth) => format!("{} is a Boolean, where a number must stand", self.called(truth)),
            None => self.two_kinds(a, b),
        }
    }

    /// Two operands that must be of one kind and are not.
    fn two_kinds(&self, a: EntryId, b: EntryId) -> String {
        let (first, second) = if self.kind(b) == Some(Kind::Int) { (b, a) } else { (a, b) };
        let told = format!(
            "{} is {} and {} {}",
            self.called(first),
            a_kind(self.kind(first)),
            self.called(second),
            a_kind(self.kind(second))
        );
        match self.as_real(first).filter(|_| self.kind(second) == Some(Kind::Real)) {
            Some(real) => format!("{told}: write {real}"),
            None => format!("{told}: both must be of one kind"),
        }
    }

    /// 11: a condition is not Boolean, or a value is not of its variable's kind.
    fn of_node(&self, node: NodeId) -> Said {
        let Some(record) = self.records.node(node) else { return Said::new("a kind is wrong", 0..0) };
        let wrong = |condition: &Condition| {
            record.condition(*condition).filter(|&entry| self.kind(entry) != Some(Kind::Bool))
        };
        if let Some(entry) = Condition::ALL.iter().find_map(wrong) {
            let what = format!(
                "{} is {}, and a condition is a Boolean",
                self.called(entry),
                a_kind(self.kind(entry))
            );
            return Said::new(what, self.span(entry));
        }
        let value = EntryId(record.value);
        if record.body() != Some(Body::Assignment) {
            return Said::new("a kind is wrong", self.span(value));
        }
        self.of_value(VariableId(record.what), value)
    }

    fn of_value(&self, variable: VariableId, value: EntryId) -> Said {
        let kind = self.records.variable(variable).and_then(|record| record.kind());
        let name = self.reading.spans.variables.get(variable.place()).cloned().unwrap_or(0..0);
        let name = String::from_utf8_lossy(&self.text[name]);
        let told =
            format!("{} is {} and {name} {}", self.called(value), a_kind(self.kind(value)), a_kind(kind));
        let what = match self.as_real(value).filter(|_| kind == Some(Kind::Real)) {
            Some(real) => format!("{told}: write {real}"),
            None => format!("{told}: a variable takes values of its own kind"),
        };
        Said::new(what, self.span(value))
    }
}

fn a_kind(kind: Option<Kind>) -> &'static str {
    match kind {
        Some(Kind::Bool) => "a Boolean",
        Some(Kind::Int) => "an Integer",
        Some(Kind::Real) => "a Real",
        None => "of no kind",
    }
}
