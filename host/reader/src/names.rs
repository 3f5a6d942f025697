//! The names by which a plan's records are called; numbers where there are none.

use crate::outline::Span;
use crate::reading::Spans;
use samblokur::{Body, LookupId, NodeId, Records, VariableId};

/// Names of a plan's records.
#[derive(Clone, Debug, Default)]
pub struct Names {
    /// The declared commands, with their numbers.
    pub commands: Vec<(String, u16)>,
    /// The lookups.
    pub lookups: Vec<String>,
    /// The variables.
    pub variables: Vec<String>,
    /// The nodes; nothing for a node without a name.
    pub nodes: Vec<Option<String>>,
    /// For each node the declared command that it calls.
    pub called: Vec<Option<usize>>,
}

impl Names {
    /// The names that a text has.
    pub fn of(text: &[u8], spans: &Spans) -> Names {
        let name = |span: &Span| String::from_utf8_lossy(&text[span.clone()]).into_owned();
        Names {
            commands: spans.commands.iter().map(|(span, number)| (name(span), *number)).collect(),
            lookups: spans.lookups.iter().map(name).collect(),
            variables: spans.variables.iter().map(name).collect(),
            nodes: spans.nodes.iter().map(|span| span.as_ref().map(name)).collect(),
            called: spans.called.clone(),
        }
    }

    /// Names made of numbers, each of them once: N0 for node 0, v0, l0, and c7 for command number 7.
    pub fn numbered(records: &Records) -> Names {
        let counts = records.counts();
        let mut names = Names {
            lookups: (0..counts.looks).map(|l| format!("l{l}")).collect(),
            variables: (0..counts.vars).map(|v| format!("v{v}")).collect(),
            nodes: (0..counts.nodes).map(|n| Some(format!("N{n}"))).collect(),
            ..Names::default()
        };
        for node in (0..counts.nodes).map(NodeId) {
            let called = records.node(node).filter(|record| record.body() == Some(Body::Command));
            let command = called.map(|record| names.command(record.what));
            names.called.push(command);
        }
        names
    }

    /// The declared command of a number, declared now if it is the first.
    fn command(&mut self, number: u16) -> usize {
        let there = self.commands.iter().position(|(_, other)| *other == number);
        there.unwrap_or_else(|| {
            self.commands.push((format!("c{number}"), number));
            self.commands.len() - 1
        })
    }

    /// What a node is called: its name, with its number beside it where another node has the name too.
    pub fn node(&self, node: NodeId) -> String {
        let Some(Some(name)) = self.nodes.get(node.place()) else { return node.to_string() };
        let alike = self.nodes.iter().flatten().filter(|other| *other == name).count();
        if alike == 1 { name.clone() } else { format!("{name} ({node})") }
    }

    /// What a variable is called.
    pub fn variable(&self, variable: VariableId) -> String {
        called(&self.variables, variable.place(), &variable.to_string())
    }

    /// What a lookup is called.
    pub fn lookup(&self, lookup: LookupId) -> String {
        called(&self.lookups, lookup.place(), &lookup.to_string())
    }

    /// What the command of a node is called.
    pub fn command_of(&self, node: NodeId, number: u16) -> String {
        let called = self.called.get(node.place()).copied().flatten();
        match called.and_then(|command| self.commands.get(command)) {
            Some((name, _)) => format!("command {name}"),
            None => format!("command {number}"),
        }
    }

    /// The lookup of a name.
    pub fn lookup_named(&self, name: &str) -> Option<LookupId> {
        let place = self.lookups.iter().position(|other| other == name)?;
        u16::try_from(place).ok().map(LookupId)
    }

    /// The nodes whose path ends so: `Scan`, or `Tower.Scan` for the one in `Tower`.
    pub fn nodes_named(&self, path: &str, records: &Records) -> Vec<NodeId> {
        let parts: Vec<&str> = path.rsplit('.').collect();
        let above = |node: &NodeId| records.node(*node).and_then(|record| record.parent());
        let ends_so = |node: &NodeId| {
            let mut upward = std::iter::successors(Some(*node), above);
            parts.iter().all(|part| {
                let name = upward.next().and_then(|node| self.nodes.get(node.place()));
                name.is_some_and(|name| name.as_deref() == Some(*part))
            })
        };
        (0..records.counts().nodes).map(NodeId).filter(ends_so).collect()
    }
}

/// A name, with its number beside it where another one has the name too; else the number.
fn called(names: &[String], place: usize, number: &str) -> String {
    let Some(name) = names.get(place) else { return number.to_string() };
    let alike = names.iter().filter(|other| *other == name).count();
    if alike == 1 { name.clone() } else { format!("{name} ({number})") }
}
