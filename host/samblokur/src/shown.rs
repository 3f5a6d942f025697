//! Records in words, field by field as they stand.

use crate::records::NONE;
use crate::{Body, Condition, ExpressionRecord, Kind, LookupRecord, NodeRecord, Operator, VariableRecord};
use std::fmt;

impl fmt::Display for NodeRecord {
    fn fmt(&self, f: &mut fmt::Formatter<'_>) -> fmt::Result {
        let body = self.body().map_or("no type", Body::word);
        write!(f, "parent {}, type {} ({body}), spare {}", Field(self.parent), self.body, self.spare)?;
        write!(f, ", priority {}", self.priority)?;
        for (condition, &entry) in Condition::ALL.iter().zip(&self.conditions) {
            write!(f, ", {condition} {}", Field(entry))?;
        }
        write!(f, ", what {}, value {}", Field(self.what), Field(self.value))
    }
}

impl fmt::Display for ExpressionRecord {
    fn fmt(&self, f: &mut fmt::Formatter<'_>) -> fmt::Result {
        let operator = self.operator().map_or("no operator", Operator::word);
        write!(f, "operator {} ({operator}), kind {} ({})", self.operator, self.kind, kind_word(self.kind))?;
        write!(f, ", a {}, b {}, spare {}, constant {:#x}", self.a, self.b, self.spare, self.constant)
    }
}

impl fmt::Display for VariableRecord {
    fn fmt(&self, f: &mut fmt::Formatter<'_>) -> fmt::Result {
        write!(f, "kind {} ({}), known {}", self.kind, kind_word(self.kind), self.known)?;
        write!(f, ", owner node {}, spare {}, initial value {:#x}", self.owner, self.spare, self.initial)
    }
}

impl fmt::Display for LookupRecord {
    fn fmt(&self, f: &mut fmt::Formatter<'_>) -> fmt::Result {
        write!(f, "kind {} ({}), spare {}", self.kind, kind_word(self.kind), self.spare)
    }
}

/// A 16-bit field in words.
struct Field(u16);

impl fmt::Display for Field {
    fn fmt(&self, f: &mut fmt::Formatter<'_>) -> fmt::Result {
        if self.0 == NONE { f.pad("none") } else { self.0.fmt(f) }
    }
}

fn kind_word(kind: u8) -> &'static str {
    Kind::of(kind).map_or("no kind", Kind::word)
}
