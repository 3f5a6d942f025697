//! Command words: what a run asks the host to do.

use crate::NodeId;
use std::fmt;

/// "A command word is twice the node number, plus 1 for an abort."
#[derive(Clone, Copy, Debug, PartialEq, Eq)]
pub enum Word {
    /// Carry out the command of this node.
    Issue(NodeId),
    /// Break off the command of this node; its return is still awaited.
    Abort(NodeId),
}

impl Word {
    /// The word of a list's place. A run writes node numbers below 256 only.
    pub fn of(word: u32) -> Word {
        let node = NodeId((word >> 1) as u16);
        if word & 1 == 1 { Word::Abort(node) } else { Word::Issue(node) }
    }

    /// The node whose command it is.
    pub fn node(self) -> NodeId {
        match self {
            Word::Issue(node) | Word::Abort(node) => node,
        }
    }
}

impl fmt::Display for Word {
    fn fmt(&self, f: &mut fmt::Formatter<'_>) -> fmt::Result {
        match self {
            Word::Issue(node) => write!(f, "issue {node}"),
            Word::Abort(node) => write!(f, "abort {node}"),
        }
    }
}
