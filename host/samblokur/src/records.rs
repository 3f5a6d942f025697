//! Readers that show an image's records, also those of an image that the check refuses.

use crate::{Body, Condition, EntryId, Kind, LookupId, NodeId, Operator, Value, VariableId};
use samblokur_sys::Counts;

/// A field that names nothing, or a condition left to its default.
pub(crate) const NONE: u16 = 65535;

/// Image bytes, read as the paper lays them out. A record that the bytes do not reach is not there.
#[derive(Clone, Copy, Debug)]
pub struct Records<'a> {
    image: &'a [u8],
}

/// A node's record as it stands.
#[derive(Clone, Copy, Debug, PartialEq, Eq)]
#[allow(missing_docs, reason = "the fields are the paper's")]
pub struct NodeRecord {
    pub parent: u16,
    pub body: u8,
    pub spare: u8,
    pub priority: u16,
    pub conditions: [u16; 7],
    pub what: u16,
    pub value: u16,
}

/// An expression's record as it stands.
#[derive(Clone, Copy, Debug, PartialEq, Eq)]
#[allow(missing_docs, reason = "the fields are the paper's")]
pub struct ExpressionRecord {
    pub operator: u8,
    pub kind: u8,
    pub a: u16,
    pub b: u16,
    pub spare: u16,
    pub constant: u64,
}

/// A variable's record as it stands.
#[derive(Clone, Copy, Debug, PartialEq, Eq)]
#[allow(missing_docs, reason = "the fields are the paper's")]
pub struct VariableRecord {
    pub kind: u8,
    pub known: u8,
    pub owner: u16,
    pub spare: u32,
    pub initial: u64,
}

/// A lookup's record as it stands.
#[derive(Clone, Copy, Debug, PartialEq, Eq)]
#[allow(missing_docs, reason = "the fields are the paper's")]
pub struct LookupRecord {
    pub kind: u8,
    pub spare: u8,
}

impl<'a> Records<'a> {
    /// The records of any bytes.
    pub fn new(image: &'a [u8]) -> Records<'a> {
        Records { image }
    }

    /// The ten numbers of the header.
    pub fn header(&self) -> Option<[u16; 10]> {
        let header: &[u8; 20] = self.image.first_chunk()?;
        Some(std::array::from_fn(|i| u16::from_le_bytes([header[2 * i], header[2 * i + 1]])))
    }

    /// The counts that the header tells.
    pub fn counts(&self) -> Counts {
        let [_, nodes, exprs, vars, looks, ..] = self.header().unwrap_or_default();
        Counts { nodes, exprs, vars, looks }
    }

    /// A node's record.
    pub fn node(&self, node: NodeId) -> Option<NodeRecord> {
        let r: [u8; 24] = self.record(0, node.0)?;
        Some(NodeRecord {
            parent: half(&r, 0),
            body: r[2],
            spare: r[3],
            priority: half(&r, 4),
            conditions: std::array::from_fn(|i| half(&r, 6 + 2 * i)),
            what: half(&r, 20),
            value: half(&r, 22),
        })
    }

    /// An expression's record.
    pub fn expression(&self, entry: EntryId) -> Option<ExpressionRecord> {
        let r: [u8; 16] = self.record(1, entry.0)?;
        let (operator, kind, constant) = (r[0], r[1], long(&r));
        Some(ExpressionRecord {
            operator,
            kind,
            a: half(&r, 2),
            b: half(&r, 4),
            spare: half(&r, 6),
            constant,
        })
    }

    /// A variable's record.
    pub fn variable(&self, variable: VariableId) -> Option<VariableRecord> {
        let r: [u8; 16] = self.record(2, variable.0)?;
        let spare = u32::from(half(&r, 4)) | u32::from(half(&r, 6)) << 16;
        Some(VariableRecord { kind: r[0], known: r[1], owner: half(&r, 2), spare, initial: long(&r) })
    }

    /// A lookup's record.
    pub fn lookup(&self, lookup: LookupId) -> Option<LookupRecord> {
        let [kind, spare] = self.record(3, lookup.0)?;
        Some(LookupRecord { kind, spare })
    }

    /// A record of a section. "Sections follow the 20-byte header in that order with no gap."
    fn record<const SIZE: usize>(&self, section: usize, number: u16) -> Option<[u8; SIZE]> {
        let Counts { nodes, exprs, vars, looks } = self.counts();
        let counts = [nodes, exprs, vars, looks];
        let before = counts.iter().zip([24, 16, 16]).take(section);
        let offset: usize = 20 + before.map(|(&count, size)| usize::from(count) * size).sum::<usize>();
        if number >= counts[section] {
            return None;
        }
        self.image.get(offset + SIZE * usize::from(number)..)?.first_chunk().copied()
    }
}

impl NodeRecord {
    /// The node above, but for node 0.
    pub fn parent(&self) -> Option<NodeId> {
        (self.parent != NONE).then_some(NodeId(self.parent))
    }

    /// What the node is.
    pub fn body(&self) -> Option<Body> {
        Body::of(self.body)
    }

    /// The entry of a condition that is not left to its default.
    pub fn condition(&self, condition: Condition) -> Option<EntryId> {
        let entry = self.conditions[usize::from(condition.number())];
        (entry != NONE).then_some(EntryId(entry))
    }
}

impl ExpressionRecord {
    /// The operator, if there is one of this number.
    pub fn operator(&self) -> Option<Operator> {
        Operator::of(self.operator)
    }

    /// The value of a constant.
    pub fn value(&self) -> Value {
        let kind = Kind::of(self.kind).filter(|_| self.b == 1);
        kind.and_then(|kind| Value::constant(kind, self.constant)).unwrap_or(Value::Unknown)
    }
}

impl VariableRecord {
    /// The kind, if there is one of this number.
    pub fn kind(&self) -> Option<Kind> {
        Kind::of(self.kind)
    }

    /// The initial value.
    pub fn value(&self) -> Value {
        let kind = self.kind().filter(|_| self.known == 1);
        kind.and_then(|kind| Value::constant(kind, self.initial)).unwrap_or(Value::Unknown)
    }
}

impl LookupRecord {
    /// The kind, if there is one of this number.
    pub fn kind(&self) -> Option<Kind> {
        Kind::of(self.kind)
    }
}

fn half(record: &[u8], at: usize) -> u16 {
    u16::from_le_bytes([record[at], record[at + 1]])
}

/// The 64 bits that end a record of 16 bytes.
fn long(record: &[u8; 16]) -> u64 {
    record[8..].iter().rev().fold(0, |bits, &byte| bits << 8 | u64::from(byte))
}
