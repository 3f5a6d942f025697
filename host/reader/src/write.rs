//! An image written as text: nodes below their parents, each entry at every place that uses it.

use crate::names::Names;
use crate::phrase::constant;
use crate::writer::{Writer, kind_word};
use samblokur::{
    Body, Condition, EntryId, LookupId, NodeId, NodeRecord, Records, Value, VariableId, VariableRecord,
};
use std::fmt::Write;

/// Entries that are written at most, over all expressions: far more than a text may have.
const MOST: usize = 20_000;

/// A text, and what is to be said of it.
#[derive(Clone, Debug)]
pub struct Written {
    /// The text.
    pub text: String,
    /// Why the image has no text of its own bytes, as far as that shows in its records.
    pub remarks: Vec<&'static str>,
    /// Whether the expressions are too long to be written out: `?` stands for what is left out.
    pub is_cut: bool,
}

/// An image that passed the check, as text under these names.
pub fn text_of(image: &[u8], names: &Names) -> Written {
    let records = Records::new(image);
    let count = records.counts().nodes;
    let mut children = vec![Vec::new(); usize::from(count)];
    for node in (1..count).map(NodeId) {
        let parent = records.node(node).and_then(|record| record.parent());
        if let Some(parent) = parent.and_then(|parent| children.get_mut(parent.place())) {
            parent.push(node);
        }
    }
    let uses = vec![0; usize::from(records.counts().exprs)];
    let mut writer =
        Writer { records, names, children, text: String::new(), uses, left: MOST, order: Vec::new() };
    writer.declarations();
    writer.node(NodeId(0), 0);
    let remarks = writer.remarks();
    Written { text: writer.text, remarks, is_cut: writer.left == 0 }
}

/// A condition's word.
pub fn condition_word(condition: Condition) -> &'static str {
    match condition {
        Condition::Skip => "SkipCondition",
        Condition::Start => "StartCondition",
        Condition::Pre => "PreCondition",
        Condition::Inv => "InvariantCondition",
        Condition::End => "EndCondition",
        Condition::Post => "PostCondition",
        Condition::Repeat => "RepeatCondition",
    }
}

impl Writer<'_> {
    fn line(&mut self, level: usize, words: &str) {
        let _ = writeln!(self.text, "{:1$}{words}", "", 4 * level);
    }

    fn declarations(&mut self) {
        for (name, number) in &self.names.commands {
            let _ = writeln!(self.text, "Command {name} = {number};");
        }
        for (number, name) in (0..).zip(&self.names.lookups) {
            let kind = self.records.lookup(LookupId(number)).and_then(|lookup| lookup.kind());
            let _ = writeln!(self.text, "{} Lookup {name};", kind.map_or("", kind_word));
        }
        if !self.text.is_empty() {
            self.text.push('\n');
        }
    }

    /// A node with all below it. A child has a greater number, so this ends.
    fn node(&mut self, node: NodeId, level: usize) {
        let Some(record) = self.records.node(node) else { return };
        self.order.push(node);
        let name = self.names.nodes.get(node.place()).cloned().flatten();
        let head = name.map_or("{".to_string(), |name| format!("{name}: {{"));
        let attributes = self.attributes(node, &record);
        let body = match record.body() {
            Some(Body::Command) => format!("Command: {}();", self.command(node)),
            Some(Body::Assignment) => {
                let value = self.expression(node, EntryId(record.value));
                format!("Assignment: {} = {value};", self.variable(record.what))
            }
            _ => return self.list(node, level, &head, &attributes),
        };
        if attributes.is_empty() && head.len() + body.len() < 90 {
            return self.line(level, &format!("{head} {body} }}"));
        }
        self.line(level, &head);
        for attribute in attributes.iter().chain([&body]) {
            self.line(level + 1, attribute);
        }
        self.line(level, "}");
    }

    fn list(&mut self, node: NodeId, level: usize, head: &str, attributes: &[String]) {
        let children = self.children[node.place()].clone();
        if attributes.is_empty() && children.is_empty() {
            return self.line(level, &format!("{head} NodeList: {{ }} }}"));
        }
        self.line(level, head);
        for attribute in attributes {
            self.line(level + 1, attribute);
        }
        self.line(level + 1, "NodeList: {");
        for child in children {
            self.node(child, level + 2);
        }
        self.line(level + 1, "}");
        self.line(level, "}");
    }

    /// Variables, priority, and the conditions in the order of their entries.
    fn attributes(&mut self, node: NodeId, record: &NodeRecord) -> Vec<String> {
        let mut attributes = self.blocks(node);
        if record.priority != 0 {
            attributes.push(format!("Priority: {};", record.priority));
        }
        let given = Condition::ALL.iter().filter_map(|&c| Some((record.condition(c)?, condition_word(c))));
        let mut given: Vec<(EntryId, &str)> = given.collect();
        given.sort();
        for (entry, word) in given {
            attributes.push(format!("{word}: {};", self.expression(node, entry)));
        }
        attributes
    }

    /// The node's variables, a block for each run of one kind.
    fn blocks(&self, node: NodeId) -> Vec<String> {
        let all = (0..self.records.counts().vars).map(VariableId);
        let own = all.filter_map(|v| self.records.variable(v).map(|record| (v, record)));
        let own: Vec<_> = own.filter(|(_, record)| record.owner == node.0).collect();
        let block = |run: &[(VariableId, VariableRecord)]| {
            let kind = run[0].1.kind().map_or("", kind_word);
            let declared = run.iter().map(|(v, record)| match record.value() {
                Value::Unknown => format!("{};", self.variable(v.0)),
                value => format!("{} = {};", self.variable(v.0), constant(value)),
            });
            format!("{kind}: {{ {} }}", declared.collect::<Vec<_>>().join(" "))
        };
        own.chunk_by(|a, b| a.1.kind == b.1.kind).map(block).collect()
    }

    fn command(&self, node: NodeId) -> &str {
        let called = self.names.called.get(node.place()).copied().flatten();
        called.and_then(|command| self.names.commands.get(command)).map_or("?", |(name, _)| name.as_str())
    }

    fn remarks(&self) -> Vec<&'static str> {
        let is_in_order = self.order.is_sorted();
        let all = [
            (self.uses.iter().any(|&uses| uses > 1), "an entry is shared"),
            (self.uses.contains(&0), "an entry is unused"),
            (!is_in_order, "the nodes are out of text order"),
        ];
        all.into_iter().filter(|(holds, _)| *holds).map(|(_, remark)| remark).collect()
    }
}
