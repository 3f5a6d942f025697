//! The entries of the expressions, by precedence climbing; the nodes' records; the image.
//!
//! It runs only when the counts are within the limits. A run of `(` is counted, so a call within a call is an
//! operator or a NOT that is pending, and there are at most 2,048 of them.

use crate::outline::{Body, Expression, Item, Node, Operator, Outline, Question, Sort, Span};

/// A field that names nothing.
const NONE: u16 = 65535;

const BOOL: u8 = 0;

/// NOT takes the comparisons, sums and products that follow.
const AFTER_NOT: u8 = 4;

/// An entry's fields.
#[derive(Clone, Copy)]
struct Entry {
    operator: u8,
    kind: u8,
    a: u16,
    b: u16,
    constant: u64,
}

/// The image, and where each entry stands in the text.
pub struct Built {
    pub image: Vec<u8>,
    pub entries: Vec<Span>,
}

struct Builder<'o> {
    outline: &'o Outline,
    meant: &'o [usize],
    entries: Vec<Entry>,
    spans: Vec<Span>,
    at: usize,
}

pub fn build(outline: &Outline, meant: &[usize]) -> Built {
    let mut builder = Builder { outline, meant, entries: Vec::new(), spans: Vec::new(), at: 0 };
    let nodes: Vec<[u16; 12]> = outline.nodes.iter().map(|node| builder.node(node)).collect();
    let image = builder.image(&nodes);
    Built { image, entries: builder.spans }
}

impl Builder<'_> {
    fn node(&mut self, node: &Node) -> [u16; 12] {
        let mut record = [NONE; 12];
        record[0] = node.parent.map_or(NONE, |parent| parent as u16);
        record[2] = node.priority;
        let mut given: Vec<(usize, Expression)> =
            node.conditions.iter().enumerate().filter_map(|(k, e)| Some((k, e.clone()?))).collect();
        given.sort_by_key(|(_, expression)| expression.start);
        for (condition, expression) in given {
            record[3 + condition] = self.expression(expression);
        }
        match &node.body {
            Body::List => record[1] = 0,
            Body::Command(command) => {
                record[1] = 1;
                record[10] = self.outline.commands[self.meant[*command]].number;
            }
            Body::Assignment(variable, expression) => {
                record[1] = 2;
                record[10] = self.meant[*variable] as u16;
                record[11] = self.expression(expression.clone());
            }
        }
        record
    }

    fn expression(&mut self, expression: Expression) -> u16 {
        self.at = expression.start;
        self.climb(1, expression.end).0
    }

    /// Operands and the operators of at least this strength between them: the last entry, and its place in the text.
    fn climb(&mut self, least: u8, end: usize) -> (u16, Span) {
        let outside = self.at;
        while matches!(self.items()[self.at].sort, Sort::Open) {
            self.at += 1;
        }
        let mut open = self.at - outside;
        let (mut left, mut span) = self.operand(end);
        while self.at < end {
            match self.items()[self.at].sort {
                Sort::Close if open > 0 => {
                    open -= 1;
                    span = self.items()[outside + open].span.start..self.items()[self.at].span.end;
                    self.at += 1;
                }
                Sort::Operator(operator) if open > 0 || operator.strength() >= least => {
                    self.at += 1;
                    let (right, ends) = self.climb(operator.strength() + 1, end);
                    span = span.start..ends.end;
                    left = self.operate(operator, left, right, &span);
                }
                _ => break,
            }
        }
        (left, span)
    }

    fn items(&self) -> &[Item] {
        &self.outline.items
    }

    fn operand(&mut self, end: usize) -> (u16, Span) {
        let Item { span, sort } = &self.outline.items[self.at];
        self.at += 1;
        if let Sort::Not = sort {
            let (operand, ends) = self.climb(AFTER_NOT, end);
            let span = span.start..ends.end;
            return (self.push(6, BOOL, operand, 0, 0, &span), span);
        }
        (self.leaf(*sort, span), span.clone())
    }

    fn leaf(&mut self, sort: Sort, span: &Span) -> u16 {
        match sort {
            Sort::Constant(kind, bits) => self.push(0, kind, 0, 1, bits, span),
            Sort::Unknown(kind) => self.push(0, kind, 0, 0, 0, span),
            Sort::Variable(name) => {
                let variable = self.meant[name];
                self.push(1, self.outline.variables[variable].kind, variable as u16, 0, 0, span)
            }
            Sort::Lookup(name) => {
                let lookup = self.meant[name];
                self.push(2, self.outline.lookups[lookup].kind, lookup as u16, 0, 0, span)
            }
            Sort::Question(question) => self.question(question, span),
            Sort::Open | Sort::Close | Sort::Not | Sort::Operator(_) => NONE,
        }
    }

    fn question(&mut self, question: Question, span: &Span) -> u16 {
        let node = self.meant[question.node] as u16;
        let asked = self.push(question.operator, BOOL, node, question.code, 0, span);
        if question.is_negated { self.push(6, BOOL, asked, 0, 0, span) } else { asked }
    }

    fn operate(&mut self, operator: Operator, a: u16, b: u16, span: &Span) -> u16 {
        let kind = self.entries[usize::from(a)].kind;
        match operator {
            Operator::And => self.push(7, BOOL, a, b, 0, span),
            Operator::Or => self.push(8, BOOL, a, b, 0, span),
            Operator::Equal => self.push(9, BOOL, a, b, 0, span),
            Operator::Unequal => {
                let equal = self.push(9, BOOL, a, b, 0, span);
                self.push(6, BOOL, equal, 0, 0, span)
            }
            Operator::Less => self.push(10, BOOL, a, b, 0, span),
            Operator::AtMost => self.push(11, BOOL, a, b, 0, span),
            Operator::Greater => self.push(10, BOOL, b, a, 0, span),
            Operator::AtLeast => self.push(11, BOOL, b, a, 0, span),
            Operator::Plus => self.push(12, kind, a, b, 0, span),
            Operator::Minus => self.push(13, kind, a, b, 0, span),
            Operator::Times => self.push(14, kind, a, b, 0, span),
        }
    }

    fn push(&mut self, operator: u8, kind: u8, a: u16, b: u16, constant: u64, span: &Span) -> u16 {
        self.entries.push(Entry { operator, kind, a, b, constant });
        self.spans.push(span.clone());
        (self.entries.len() - 1) as u16
    }

    /// Header, nodes, expressions, variables, lookups.
    fn image(&self, nodes: &[[u16; 12]]) -> Vec<u8> {
        let outline = self.outline;
        let mut image = Vec::with_capacity(length(outline));
        image.extend(header(outline).map(|number| (number as u16).to_le_bytes()).as_flattened());
        image.extend(nodes.iter().flatten().flat_map(|field| field.to_le_bytes()));
        for entry in &self.entries {
            image.extend([entry.operator, entry.kind]);
            image.extend([entry.a, entry.b, 0].map(u16::to_le_bytes).as_flattened());
            image.extend(entry.constant.to_le_bytes());
        }
        for variable in &outline.variables {
            image.extend([variable.kind, u8::from(variable.initial.is_some())]);
            image.extend([variable.owner as u16, 0, 0].map(u16::to_le_bytes).as_flattened());
            image.extend(variable.initial.unwrap_or(0).to_le_bytes());
        }
        image.extend(outline.lookups.iter().flat_map(|lookup| [lookup.kind, 0]));
        image
    }
}

/// Edition, counts, offsets, total length.
fn header(outline: &Outline) -> [usize; 10] {
    let [n, e, v, l] = counts(outline);
    let exprs = 20 + 24 * n;
    let vars = exprs + 16 * e;
    let looks = vars + 16 * v;
    [1, n, e, v, l, 20, exprs, vars, looks, looks + 2 * l]
}

/// Nodes, entries, variables, lookups.
pub fn counts(outline: &Outline) -> [usize; 4] {
    [outline.nodes.len(), outline.entries, outline.variables.len(), outline.lookups.len()]
}

/// The length of the image.
pub fn length(outline: &Outline) -> usize {
    header(outline)[9]
}
