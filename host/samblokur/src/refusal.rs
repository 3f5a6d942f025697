//! The paper's refusals: number, name, and a sentence for each.

use crate::{EntryId, LookupId, NodeId, VariableId};
use samblokur_sys::Report;
use std::error::Error;
use std::fmt;

/// Why a call was refused. Apart from `NoRoom` a refusal changes nothing.
#[derive(Clone, Copy, Debug, PartialEq, Eq)]
#[allow(missing_docs, reason = "each case's meaning is its sentence")]
pub enum Refusal {
    Short,
    Edition,
    Count,
    Layout,
    Tree(NodeId),
    Node(NodeId),
    Variable(VariableId),
    Lookup(LookupId),
    Expression(EntryId),
    Deep(EntryId),
    Kind(NodeId),
    Reach(NodeId),
    Busy,
    Shape,
    Turn,
    /// With the number of the event's entry, as the next two.
    Entry(u16),
    Twice(u16),
    NotAwaited(u16),
    State,
    Place,
    /// Keeps the steps already done: their count, and the next free place in the list.
    NoRoom {
        steps: u32,
        next: usize,
    },
    /// A number that the paper does not give, which the proved library never answers.
    Unlisted(u32),
}

impl Refusal {
    /// The refusal that a report tells of, if it tells of one.
    pub(crate) fn of(report: &Report) -> Result<(), Refusal> {
        let record = report.record as u16;
        Err(match report.number {
            0 => return Ok(()),
            1 => Refusal::Short,
            2 => Refusal::Edition,
            3 => Refusal::Count,
            4 => Refusal::Layout,
            5 => Refusal::Tree(NodeId(record)),
            6 => Refusal::Node(NodeId(record)),
            7 => Refusal::Variable(VariableId(record)),
            8 => Refusal::Lookup(LookupId(record)),
            9 => Refusal::Expression(EntryId(record)),
            10 => Refusal::Deep(EntryId(record)),
            11 => Refusal::Kind(NodeId(record)),
            12 => Refusal::Reach(NodeId(record)),
            20 => Refusal::Busy,
            21 => Refusal::Shape,
            22 => Refusal::Turn,
            23 => Refusal::Entry(record),
            24 => Refusal::Twice(record),
            25 => Refusal::NotAwaited(record),
            30 => Refusal::State,
            31 => Refusal::Place,
            32 => Refusal::NoRoom { steps: report.steps, next: report.next },
            number => Refusal::Unlisted(number),
        })
    }

    /// The paper's number.
    pub fn number(self) -> u32 {
        match self {
            Refusal::Short => 1,
            Refusal::Edition => 2,
            Refusal::Count => 3,
            Refusal::Layout => 4,
            Refusal::Tree(_) => 5,
            Refusal::Node(_) => 6,
            Refusal::Variable(_) => 7,
            Refusal::Lookup(_) => 8,
            Refusal::Expression(_) => 9,
            Refusal::Deep(_) => 10,
            Refusal::Kind(_) => 11,
            Refusal::Reach(_) => 12,
            Refusal::Busy => 20,
            Refusal::Shape => 21,
            Refusal::Turn => 22,
            Refusal::Entry(_) => 23,
            Refusal::Twice(_) => 24,
            Refusal::NotAwaited(_) => 25,
            Refusal::State => 30,
            Refusal::Place => 31,
            Refusal::NoRoom { .. } => 32,
            Refusal::Unlisted(number) => number,
        }
    }

    /// The paper's name.
    pub fn name(self) -> &'static str {
        match self {
            Refusal::Short => "Short",
            Refusal::Edition => "Edition",
            Refusal::Count => "Count",
            Refusal::Layout => "Layout",
            Refusal::Tree(_) => "Tree",
            Refusal::Node(_) => "Node",
            Refusal::Variable(_) => "Variable",
            Refusal::Lookup(_) => "Lookup",
            Refusal::Expression(_) => "Expression",
            Refusal::Deep(_) => "Deep",
            Refusal::Kind(_) => "Kind",
            Refusal::Reach(_) => "Reach",
            Refusal::Busy => "Busy",
            Refusal::Shape => "Shape",
            Refusal::Turn => "Turn",
            Refusal::Entry(_) => "Entry",
            Refusal::Twice(_) => "Twice",
            Refusal::NotAwaited(_) => "NotAwaited",
            Refusal::State => "State",
            Refusal::Place => "Place",
            Refusal::NoRoom { .. } => "NoRoom",
            Refusal::Unlisted(_) => "Unlisted",
        }
    }
}

/// The refusal as a sentence, without its number.
impl fmt::Display for Refusal {
    fn fmt(&self, f: &mut fmt::Formatter<'_>) -> fmt::Result {
        f.write_str(&self.of_image().or_else(|| self.of_event()).unwrap_or_else(|| self.of_run()))
    }
}

/// The sentences.
impl Refusal {
    fn of_image(self) -> Option<String> {
        Some(match self {
            Refusal::Short => "the image is under 20 bytes, so it has no whole header".to_string(),
            Refusal::Edition => "the image is not of edition 1".to_string(),
            Refusal::Count => "a count of the image is outside the limits".to_string(),
            Refusal::Layout => "an offset, the total length or the image's own length differs".to_string(),
            Refusal::Tree(node) => format!("the parent of {node} is wrong"),
            Refusal::Node(node) => format!("the type, the spare or a field of {node} is wrong"),
            Refusal::Variable(variable) => format!("the record of {variable} is wrong"),
            Refusal::Lookup(lookup) => format!("the record of {lookup} is wrong"),
            Refusal::Expression(entry) => {
                format!("the operator, spare, an operand, the kind or the constant of {entry} is wrong")
            }
            Refusal::Deep(entry) => format!("{entry} is over 12 deep"),
            Refusal::Kind(node) => {
                format!("{node} has a condition that is not Bool, or a value not of its target's kind")
            }
            Refusal::Reach(node) => {
                format!("{node} reads or assigns a variable whose owner is neither it nor above it")
            }
            _ => return None,
        })
    }

    fn of_event(self) -> Option<String> {
        Some(match self {
            Refusal::Busy => "the plan is still Running, so it takes no event".to_string(),
            Refusal::Shape => "the event's length, count or spare is wrong".to_string(),
            Refusal::Turn => "the event's serial is not the next".to_string(),
            Refusal::Entry(entry) => {
                format!("entry {entry} of the event has a wrong form, spare, index or value")
            }
            Refusal::Twice(entry) => format!("entry {entry} of the event names a lookup or node again"),
            Refusal::NotAwaited(entry) => {
                format!("entry {entry} of the event returns a command whose return is not awaited")
            }
            _ => return None,
        })
    }

    fn of_run(self) -> String {
        match self {
            Refusal::State => "the kept state or card is none that this plan can have".to_string(),
            Refusal::Place => "the start place is beyond the command list's end".to_string(),
            Refusal::NoRoom { steps, .. } => {
                format!(
                    "the next step's words do not fit into the command list; {steps} steps are done and kept"
                )
            }
            other => format!("the executive answered the unlisted number {}", other.number()),
        }
    }
}

impl Error for Refusal {}
