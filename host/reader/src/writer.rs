//! An image that is being written as text, and the names by which its records are written.

use crate::names::Names;
use samblokur::{Kind, NodeId, Records};

pub struct Writer<'w> {
    pub records: Records<'w>,
    pub names: &'w Names,
    pub children: Vec<Vec<NodeId>>,
    pub text: String,
    /// How often each entry was written.
    pub uses: Vec<usize>,
    /// How many more entries may be written.
    pub left: usize,
    /// The nodes as they were written.
    pub order: Vec<NodeId>,
}

/// A kind's word.
pub fn kind_word(kind: Kind) -> &'static str {
    match kind {
        Kind::Bool => "Boolean",
        Kind::Int => "Integer",
        Kind::Real => "Real",
    }
}

impl Writer<'_> {
    pub fn variable(&self, number: u16) -> &str {
        self.names.variables.get(usize::from(number)).map_or("?", String::as_str)
    }

    /// The shortest path by which a node can name another.
    pub fn path(&self, from: NodeId, to: NodeId) -> String {
        let mut path: Vec<&str> = Vec::new();
        for node in self.upward(to) {
            let Some(Some(name)) = self.names.nodes.get(node.place()) else { break };
            path.insert(0, name);
            if self.meant(from, &path) == Some(to) {
                return path.join(".");
            }
        }
        "?".to_string()
    }

    /// The node that a path means.
    fn meant(&self, from: NodeId, path: &[&str]) -> Option<NodeId> {
        let (first, rest) = path.split_first()?;
        let is_named = |node: NodeId, name: &str| {
            self.names.nodes.get(node.place()).is_some_and(|other| other.as_deref() == Some(name))
        };
        let child = |node: NodeId, name: &str| {
            self.children[node.place()].iter().copied().find(|&child| is_named(child, name))
        };
        let mut upward = self.upward(from);
        let first =
            upward.find_map(|node| if is_named(node, first) { Some(node) } else { child(node, first) })?;
        rest.iter().try_fold(first, |node, name| child(node, name))
    }

    /// The node and all above it.
    fn upward(&self, node: NodeId) -> impl Iterator<Item = NodeId> {
        let above = |node: &NodeId| self.records.node(*node).and_then(|record| record.parent());
        std::iter::successors(Some(node), above)
    }
}
