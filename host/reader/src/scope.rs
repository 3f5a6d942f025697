//! Names: what each use means, or the first name that is not in order (42).

use crate::outline::{Mention, Outline, Span, What};
use std::collections::HashMap;
use std::collections::hash_map::Entry;

/// The four name spaces.
#[derive(Clone, Copy, Debug, PartialEq, Eq)]
pub enum Space {
    /// Commands.
    Command,
    /// Lookups.
    Lookup,
    /// Variables.
    Variable,
    /// Nodes.
    Node,
}

impl Space {
    /// All of them.
    pub const ALL: [Space; 4] = [Space::Command, Space::Lookup, Space::Variable, Space::Node];
}

/// 42: a name, and where its first declaration is if it is a second one.
#[derive(Debug)]
pub struct BadName {
    pub name: Span,
    pub space: Space,
    pub first: Option<Span>,
}

type Table<'t, Key> = HashMap<(Key, &'t [u8]), usize>;

/// The first declarations of each name.
struct Scopes<'t> {
    text: &'t [u8],
    outline: &'t Outline,
    commands: Table<'t, ()>,
    lookups: Table<'t, ()>,
    /// By the node that owns them.
    variables: Table<'t, usize>,
    /// By their parent.
    children: Table<'t, usize>,
}

/// For each mention the number that it means.
pub fn resolve(text: &[u8], outline: &Outline) -> Result<Vec<usize>, BadName> {
    let scopes = Scopes::of(text, outline);
    let mut meant: Vec<usize> = Vec::with_capacity(outline.mentions.len());
    for mention in &outline.mentions {
        let number = scopes.meaning(mention, meant.last().copied())?;
        meant.push(number);
    }
    Ok(meant)
}

impl<'t> Scopes<'t> {
    fn of(text: &'t [u8], outline: &'t Outline) -> Scopes<'t> {
        let mut scopes = Scopes {
            text,
            outline,
            commands: HashMap::new(),
            lookups: HashMap::new(),
            variables: HashMap::new(),
            children: HashMap::new(),
        };
        for mention in &outline.mentions {
            let name = &text[mention.name.clone()];
            match mention.what {
                What::Command(number) => first(scopes.commands.entry(((), name)), number),
                What::Lookup(number) => first(scopes.lookups.entry(((), name)), number),
                What::Variable(number) => {
                    first(scopes.variables.entry((outline.variables[number].owner, name)), number);
                }
                What::Node(number) => {
                    if let Some(parent) = outline.nodes[number].parent {
                        first(scopes.children.entry((parent, name)), number);
                    }
                }
                _ => {}
            }
        }
        scopes
    }

    /// What a mention means; `before` is what the mention before it means.
    fn meaning(&self, mention: &Mention, before: Option<usize>) -> Result<usize, BadName> {
        let name = &self.text[mention.name.clone()];
        let (found, space) = match mention.what {
            What::Command(_) | What::UseOfCommand => {
                (self.commands.get(&((), name)).copied(), Space::Command)
            }
            What::Lookup(_) | What::UseOfLookup => (self.lookups.get(&((), name)).copied(), Space::Lookup),
            What::Variable(number) => {
                let owner = self.outline.variables[number].owner;
                (self.variables.get(&(owner, name)).copied(), Space::Variable)
            }
            What::UseOfVariable(node) => (self.variable(node, name), Space::Variable),
            What::Node(number) => (self.sibling(number, name), Space::Node),
            What::UseOfNode(node) => (self.node(node, name), Space::Node),
            What::Below => (before.and_then(|above| self.child(above, name)), Space::Node),
        };
        let declared = match mention.what {
            What::Command(number) | What::Lookup(number) | What::Variable(number) | What::Node(number) => {
                Some(number)
            }
            _ => None,
        };
        match found {
            Some(found) if declared.is_none_or(|number| number == found) => Ok(found),
            _ => Err(BadName {
                name: mention.name.clone(),
                space,
                first: found.map(|number| self.declaration(space, number)),
            }),
        }
    }

    fn declaration(&self, space: Space, number: usize) -> Span {
        match space {
            Space::Command => self.outline.commands[number].name.clone(),
            Space::Lookup => self.outline.lookups[number].name.clone(),
            Space::Variable => self.outline.variables[number].name.clone(),
            Space::Node => self.outline.nodes[number].begins.clone(),
        }
    }

    /// The first of a node's list that has its name; node 0 is in no list.
    fn sibling(&self, number: usize, name: &[u8]) -> Option<usize> {
        match self.outline.nodes[number].parent {
            Some(parent) => self.child(parent, name),
            None => Some(number),
        }
    }

    fn child(&self, parent: usize, name: &[u8]) -> Option<usize> {
        self.children.get(&(parent, name)).copied()
    }

    /// "the one of the node itself or of the nearest node above that declares it"
    fn variable(&self, node: usize, name: &[u8]) -> Option<usize> {
        self.upward(node).find_map(|node| self.variables.get(&(node, name)).copied())
    }

    /// "for the node itself, then its parent, and so on up: that node if it has the name, else a child of it that has"
    fn node(&self, node: usize, name: &[u8]) -> Option<usize> {
        self.upward(node).find_map(|node| {
            let record = &self.outline.nodes[node];
            let is_it = record.is_named && self.text[record.begins.clone()] == *name;
            if is_it { Some(node) } else { self.child(node, name) }
        })
    }

    /// The node and all above it.
    fn upward(&self, node: usize) -> impl Iterator<Item = usize> {
        std::iter::successors(Some(node), |&node| self.outline.nodes[node].parent)
    }
}

fn first<Key>(entry: Entry<'_, Key, usize>, number: usize) {
    entry.or_insert(number);
}
