//! A plan as the generator holds it: names, scopes and expressions, before it is printed.

use crate::expr::Expr;

pub const BOOL: u8 = 0;
pub const INT: u8 = 1;
pub const REAL: u8 = 2;

#[derive(Clone, Default)]
pub struct Plan {
    pub commands: Vec<Command>,
    pub lookups: Vec<Lookup>,
    /// Nodes in text order.
    pub nodes: Vec<Node>,
    pub variables: Vec<Variable>,
}

#[derive(Clone)]
pub struct Command {
    pub name: String,
    pub number: u16,
}

#[derive(Clone)]
pub struct Lookup {
    pub name: String,
    pub kind: u8,
}

#[derive(Clone)]
pub struct Variable {
    pub name: String,
    pub kind: u8,
    pub owner: usize,
    pub initial: Option<u64>,
}

#[derive(Clone)]
pub struct Node {
    pub name: Option<String>,
    pub parent: Option<usize>,
    pub attributes: Vec<Attribute>,
    pub body: Body,
}

#[derive(Clone)]
pub enum Attribute {
    /// The condition's number, its expression, and whether Repeat is written as RepeatUntilCondition.
    Condition(usize, Expr, bool),
    Priority(u16),
    /// A block of variables of one kind, by their numbers.
    Variables(Vec<usize>),
}

#[derive(Clone)]
pub enum Body {
    List,
    Command(usize),
    /// A variable by its number.
    Assignment(usize, Expr),
}

impl Plan {
    pub fn children(&self, node: usize) -> impl Iterator<Item = usize> {
        (0..self.nodes.len()).filter(move |&child| self.nodes[child].parent == Some(node))
    }

    /// The node and all above it.
    pub fn upward(&self, node: usize) -> impl Iterator<Item = usize> {
        std::iter::successors(Some(node), |&node| self.nodes[node].parent)
    }

    /// The variable that a name means in a node.
    pub fn variable(&self, node: usize, name: &str) -> Option<usize> {
        self.upward(node).find_map(|owner| {
            self.variables.iter().position(|variable| variable.owner == owner && variable.name == name)
        })
    }

    /// The node that a path means in a node.
    pub fn at_path(&self, node: usize, path: &[String]) -> Option<usize> {
        let (first, rest) = path.split_first()?;
        let first =
            self.upward(node).find_map(|above| match self.nodes[above].name.as_ref() == Some(first) {
                true => Some(above),
                false => self.child(above, first),
            });
        rest.iter().try_fold(first?, |above, name| self.child(above, name))
    }

    fn child(&self, parent: usize, name: &str) -> Option<usize> {
        self.children(parent).find(|&child| self.nodes[child].name.as_deref() == Some(name))
    }

    /// The paths by which a node can name another.
    pub fn paths(&self, from: usize, to: usize) -> Vec<Vec<String>> {
        let mut path = Vec::new();
        let mut paths = Vec::new();
        for node in self.upward(to) {
            let Some(name) = &self.nodes[node].name else { break };
            path.insert(0, name.clone());
            if self.at_path(from, &path) == Some(to) {
                paths.push(path.clone());
            }
        }
        paths
    }
}
