//! The plan image: little-endian readers and the records of its four sections.

use samblokur_sys::Counts;

/// A field that names nothing, or a condition left to its default.
pub const NONE: u16 = 65535;

pub const LIST: u8 = 0;
pub const COMMAND: u8 = 1;
pub const ASSIGNMENT: u8 = 2;

pub const HEADER: usize = 20;
pub const NODE: usize = 24;
pub const EXPRESSION: usize = 16;
pub const VARIABLE: usize = 16;
pub const LOOKUP: usize = 2;

/// Image bytes with their counts.
#[derive(Clone, Copy)]
pub struct Image<'a> {
    pub bytes: &'a [u8],
    pub counts: Counts,
}

pub struct Node {
    pub parent: u16,
    pub kind: u8,
    pub spare: u8,
    pub priority: u16,
    /// Skip, Start, Pre, Inv, End, Post, Repeat.
    pub conditions: [u16; 7],
    pub what: u16,
    pub value: u16,
}

pub struct Expression {
    pub operator: u8,
    pub kind: u8,
    pub a: u16,
    pub b: u16,
    pub spare: u16,
    pub constant: u64,
}

pub struct Variable {
    pub kind: u8,
    pub known: u8,
    pub owner: u16,
    pub spare: u32,
    pub initial: u64,
}

pub struct Lookup {
    pub kind: u8,
    pub spare: u8,
}

impl Image<'_> {
    pub fn nodes(&self) -> usize {
        usize::from(self.counts.nodes)
    }

    pub fn exprs(&self) -> usize {
        usize::from(self.counts.exprs)
    }

    pub fn vars(&self) -> usize {
        usize::from(self.counts.vars)
    }

    pub fn looks(&self) -> usize {
        usize::from(self.counts.looks)
    }

    /// "Sections follow the 20-byte header in that order with no gap": the four offsets and the end.
    pub fn offsets(&self) -> [usize; 5] {
        let exprs = HEADER + NODE * self.nodes();
        let vars = exprs + EXPRESSION * self.exprs();
        let looks = vars + VARIABLE * self.vars();
        [HEADER, exprs, vars, looks, looks + LOOKUP * self.looks()]
    }

    pub fn node(&self, i: usize) -> Node {
        let at = HEADER + NODE * i;
        let field = |n: usize| u16_at(self.bytes, at + n);
        Node {
            parent: field(0),
            kind: byte_at(self.bytes, at + 2),
            spare: byte_at(self.bytes, at + 3),
            priority: field(4),
            conditions: [field(6), field(8), field(10), field(12), field(14), field(16), field(18)],
            what: field(20),
            value: field(22),
        }
    }

    pub fn expression(&self, i: usize) -> Expression {
        let at = HEADER + NODE * self.nodes() + EXPRESSION * i;
        Expression {
            operator: byte_at(self.bytes, at),
            kind: byte_at(self.bytes, at + 1),
            a: u16_at(self.bytes, at + 2),
            b: u16_at(self.bytes, at + 4),
            spare: u16_at(self.bytes, at + 6),
            constant: u64_at(self.bytes, at + 8),
        }
    }

    pub fn variable(&self, i: usize) -> Variable {
        let at = self.offsets()[2] + VARIABLE * i;
        Variable {
            kind: byte_at(self.bytes, at),
            known: byte_at(self.bytes, at + 1),
            owner: u16_at(self.bytes, at + 2),
            spare: u32_at(self.bytes, at + 4),
            initial: u64_at(self.bytes, at + 8),
        }
    }

    pub fn lookup(&self, i: usize) -> Lookup {
        let at = self.offsets()[3] + LOOKUP * i;
        Lookup { kind: byte_at(self.bytes, at), spare: byte_at(self.bytes, at + 1) }
    }
}

/// The `N` bytes from `at` on; zeros where the bytes end before.
fn bytes_at<const N: usize>(bytes: &[u8], at: usize) -> [u8; N] {
    bytes.get(at..).and_then(|rest| rest.first_chunk()).copied().unwrap_or([0; N])
}

pub fn byte_at(bytes: &[u8], at: usize) -> u8 {
    bytes.get(at).copied().unwrap_or(0)
}

pub fn u16_at(bytes: &[u8], at: usize) -> u16 {
    u16::from_le_bytes(bytes_at(bytes, at))
}

pub fn u32_at(bytes: &[u8], at: usize) -> u32 {
    u32::from_le_bytes(bytes_at(bytes, at))
}

pub fn u64_at(bytes: &[u8], at: usize) -> u64 {
    u64::from_le_bytes(bytes_at(bytes, at))
}
