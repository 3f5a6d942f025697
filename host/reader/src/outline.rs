//! What a text of the grammar says, names still as they are written.

use std::ops::Range;

/// A place in the text, as bytes.
pub type Span = Range<usize>;

/// 0 Bool, 1 Int, 2 Real.
pub type Kind = u8;

/// The number of a mention.
pub type MentionId = usize;

/// The whole outline.
#[derive(Default)]
pub struct Outline {
    pub commands: Vec<Command>,
    pub lookups: Vec<Lookup>,
    pub nodes: Vec<Node>,
    pub variables: Vec<Variable>,
    /// Every name, in text order.
    pub mentions: Vec<Mention>,
    /// The items of all expressions, in text order.
    pub items: Vec<Item>,
    /// How many entries they make.
    pub entries: usize,
}

pub struct Command {
    pub name: Span,
    pub number: u16,
}

pub struct Lookup {
    pub name: Span,
    pub kind: Kind,
}

pub struct Variable {
    pub name: Span,
    pub kind: Kind,
    pub owner: usize,
    pub initial: Option<u64>,
}

/// A node: where it begins is its name, else its brace.
pub struct Node {
    pub begins: Span,
    pub is_named: bool,
    pub parent: Option<usize>,
    pub level: usize,
    pub priority: u16,
    pub conditions: [Option<Expression>; 7],
    pub body: Body,
}

pub enum Body {
    List,
    Command(MentionId),
    Assignment(MentionId, Expression),
}

/// The items of an expression.
pub type Expression = Range<usize>;

/// A name in the text: a declaration by its number, or a use.
pub struct Mention {
    pub name: Span,
    pub what: What,
}

#[derive(Clone, Copy)]
pub enum What {
    Command(usize),
    Lookup(usize),
    Variable(usize),
    Node(usize),
    UseOfCommand,
    UseOfLookup,
    /// With the node that uses it.
    UseOfVariable(usize),
    /// The first part of a path, with the node that uses it.
    UseOfNode(usize),
    /// A later part of a path: its mention follows that of the part before it.
    Below,
}

/// A token or a leaf of an expression.
pub struct Item {
    pub span: Span,
    pub sort: Sort,
}

#[derive(Clone, Copy)]
pub enum Sort {
    Open,
    Close,
    Not,
    Operator(Operator),
    Constant(Kind, u64),
    Unknown(Kind),
    Variable(MentionId),
    Lookup(MentionId),
    Question(Question),
}

/// `P.state == S` and the like; the mention is that of the path's last part.
#[derive(Clone, Copy)]
pub struct Question {
    pub operator: u8,
    pub node: MentionId,
    pub code: u16,
    pub is_negated: bool,
}

#[derive(Clone, Copy, PartialEq, Eq)]
pub enum Operator {
    Or,
    And,
    Equal,
    Unequal,
    Less,
    AtMost,
    Greater,
    AtLeast,
    Plus,
    Minus,
    Times,
}

impl Operator {
    pub fn of(token: &[u8]) -> Option<Operator> {
        Some(match token {
            b"||" | b"OR" => Operator::Or,
            b"&&" | b"AND" => Operator::And,
            b"==" => Operator::Equal,
            b"!=" => Operator::Unequal,
            b"<" => Operator::Less,
            b"<=" => Operator::AtMost,
            b">" => Operator::Greater,
            b">=" => Operator::AtLeast,
            b"+" => Operator::Plus,
            b"-" => Operator::Minus,
            b"*" => Operator::Times,
            _ => return None,
        })
    }

    /// "From weakest to strongest"; NOT has 3.
    pub fn strength(self) -> u8 {
        match self {
            Operator::Or => 1,
            Operator::And => 2,
            Operator::Plus | Operator::Minus => 5,
            Operator::Times => 6,
            _ => 4,
        }
    }
}
