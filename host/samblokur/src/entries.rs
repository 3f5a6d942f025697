//! The assembler's expressions: an entry for each operator.

use crate::assemble::{Entry, PlanBuilder, last};
use crate::{EntryId, Failure, Kind, LookupId, NodeId, Operator, Outcome, Status, Value, VariableId};

impl PlanBuilder {
    /// A constant; an Unknown one is of kind Bool.
    pub fn constant(&mut self, value: impl Into<Value>) -> EntryId {
        let value = value.into();
        let Some(kind) = value.kind() else { return self.unknown(Kind::Bool) };
        self.entry(Operator::Constant, kind, 0, 1, value.bits())
    }

    /// An Unknown constant.
    pub fn unknown(&mut self, kind: Kind) -> EntryId {
        self.entry(Operator::Constant, kind, 0, 0, 0)
    }

    /// The value of a variable.
    pub fn variable(&mut self, variable: VariableId) -> EntryId {
        let kind = self.vars.get(variable.place()).map_or(Kind::Bool, |variable| variable.kind);
        self.entry(Operator::Variable, kind, variable.0, 0, 0)
    }

    /// The value of a lookup.
    pub fn lookup(&mut self, lookup: LookupId) -> EntryId {
        let kind = self.looks.get(lookup.place()).copied().unwrap_or(Kind::Bool);
        self.entry(Operator::Lookup, kind, lookup.0, 0, 0)
    }

    /// Whether a node's status is this one.
    pub fn status(&mut self, node: NodeId, status: Status) -> EntryId {
        self.entry(Operator::Status, Kind::Bool, node.0, u16::from(status.number()), 0)
    }

    /// Whether a node's outcome is this one.
    pub fn outcome(&mut self, node: NodeId, outcome: Outcome) -> EntryId {
        self.entry(Operator::Outcome, Kind::Bool, node.0, u16::from(outcome.number()), 0)
    }

    /// Whether a node's failure is this one.
    pub fn failure(&mut self, node: NodeId, failure: Failure) -> EntryId {
        self.entry(Operator::Failure, Kind::Bool, node.0, u16::from(failure.number()), 0)
    }

    /// NOT a.
    pub fn not(&mut self, a: EntryId) -> EntryId {
        self.entry(Operator::Not, Kind::Bool, a.0, 0, 0)
    }

    /// a AND b.
    pub fn and(&mut self, a: EntryId, b: EntryId) -> EntryId {
        self.entry(Operator::And, Kind::Bool, a.0, b.0, 0)
    }

    /// a OR b.
    pub fn or(&mut self, a: EntryId, b: EntryId) -> EntryId {
        self.entry(Operator::Or, Kind::Bool, a.0, b.0, 0)
    }

    /// a EQ b.
    pub fn eq(&mut self, a: EntryId, b: EntryId) -> EntryId {
        self.entry(Operator::Eq, Kind::Bool, a.0, b.0, 0)
    }

    /// a LT b.
    pub fn lt(&mut self, a: EntryId, b: EntryId) -> EntryId {
        self.entry(Operator::Lt, Kind::Bool, a.0, b.0, 0)
    }

    /// a LE b.
    pub fn le(&mut self, a: EntryId, b: EntryId) -> EntryId {
        self.entry(Operator::Le, Kind::Bool, a.0, b.0, 0)
    }

    /// a ADD b.
    pub fn add(&mut self, a: EntryId, b: EntryId) -> EntryId {
        self.entry(Operator::Add, self.kind_of(a), a.0, b.0, 0)
    }

    /// a SUB b.
    pub fn sub(&mut self, a: EntryId, b: EntryId) -> EntryId {
        self.entry(Operator::Sub, self.kind_of(a), a.0, b.0, 0)
    }

    /// a MUL b.
    pub fn mul(&mut self, a: EntryId, b: EntryId) -> EntryId {
        self.entry(Operator::Mul, self.kind_of(a), a.0, b.0, 0)
    }

    fn entry(&mut self, operator: Operator, kind: Kind, a: u16, b: u16, constant: u64) -> EntryId {
        self.exprs.push(Entry { operator, kind, a, b, constant });
        EntryId(last(self.exprs.len()))
    }

    fn kind_of(&self, entry: EntryId) -> Kind {
        self.exprs.get(entry.place()).map_or(Kind::Int, |entry| entry.kind)
    }
}
