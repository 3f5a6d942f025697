//! What reading a text gives: an image with its places in the text, or a refusal with what there is to say of it.

use crate::lead::Lead;
use crate::outline::Span;
use crate::scope::Space;

/// A text that was read.
#[derive(Clone, Debug)]
pub struct Reading {
    /// The plan image.
    pub image: Vec<u8>,
    /// Where its records stand in the text.
    pub spans: Spans,
}

/// Where records stand in the text.
#[derive(Clone, Debug, Default)]
pub struct Spans {
    /// The names of the declared commands, with their numbers.
    pub commands: Vec<(Span, u16)>,
    /// The names of the lookups.
    pub lookups: Vec<Span>,
    /// The names of the variables.
    pub variables: Vec<Span>,
    /// The names of the nodes; nothing for a node without one.
    pub nodes: Vec<Option<Span>>,
    /// For each node the declared command that it calls.
    pub called: Vec<Option<usize>>,
    /// The expressions that the entries stand for.
    pub entries: Vec<Span>,
}

/// A refusal: the paper's number, its place in the text or its record, and what there is to say of it.
#[derive(Clone, Debug)]
pub struct Refused {
    /// 40 to 43, 3, or another of 1 to 12.
    pub number: u32,
    /// A place in the text for 40 to 42, 0 for 3 and 43, else the record.
    pub place: usize,
    /// What there is to say of it.
    pub why: Why,
}

/// What there is to say of a refusal.
#[derive(Clone, Debug)]
pub enum Why {
    /// 40: the token that the place lies in or before, and what could have stood there.
    Text(Span, Vec<Lead>),
    /// 40: a comment that does not end, or a `/` that begins none.
    Comment(Span),
    /// 41: the name or brace of the node.
    Level(Span),
    /// 42: a name that is not declared.
    Undeclared(Undeclared),
    /// 42: a second declaration, and the first.
    Twice(Space, Span, Span),
    /// 3: the counts of nodes, entries, variables and lookups.
    Count([usize; 4]),
    /// 43: the length of the image.
    Room(usize),
    /// One of the check's: the image that it refuses.
    Image(Box<Reading>),
}

/// A name that its name space does not declare.
#[derive(Clone, Debug)]
pub struct Undeclared {
    /// The name space.
    pub space: Space,
    /// The name.
    pub name: Span,
    /// The names that are declared in the name space.
    pub declared: Vec<Span>,
    /// Other name spaces that declare it.
    pub elsewhere: Vec<Space>,
}
