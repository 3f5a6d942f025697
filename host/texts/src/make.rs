//! Random plans: a tree with names, variables in their scopes, and expressions over what is in scope.

use crate::expr::Expr;
use crate::plan::{Attribute, BOOL, Body, Command, Lookup, Node, Plan, REAL, Variable};
use differ::Random;

/// Names that meet each other often, some of them near reserved words.
const NAMES: [&str; 14] =
    ["a", "b", "x", "y9", "Scan", "A_b", "state1", "NOTE", "Realm", "Lookups", "P", "i", "True", "INF"];

/// Expressions deeper than this are deep on their left only.
const DEEP: usize = 7;

/// How a plan is to be.
#[derive(Clone, Copy)]
pub struct Shape {
    pub nodes: usize,
    /// Percent of operands whose kind is any.
    pub careless: usize,
    pub deep: usize,
}

pub fn plan(random: &mut Random, shape: Shape) -> Plan {
    let mut maker = Maker { random, plan: Plan::default(), shape };
    maker.declarations();
    maker.tree();
    maker.variables();
    for node in 0..maker.plan.nodes.len() {
        maker.dress(node);
    }
    maker.plan
}

struct Maker<'r> {
    random: &'r mut Random,
    plan: Plan,
    shape: Shape,
}

impl Maker<'_> {
    fn name(&mut self) -> String {
        let name = self.random.pick(&NAMES);
        if self.random.chance(10) { format!("{name}_{}", self.random.below(99)) } else { name.to_string() }
    }

    /// A name that none of these is.
    fn other_name(&mut self, names: &[String]) -> String {
        let name = self.name();
        if names.contains(&name) { format!("{name}{}", names.len()) } else { name }
    }

    fn declarations(&mut self) {
        let mut names = Vec::new();
        for _ in 0..self.random.below(5) {
            let name = self.other_name(&names);
            names.push(name.clone());
            let number = self.random.pick(&[0, 1, 7, 7, 65534]);
            self.plan.commands.push(Command { name, number });
        }
        names.clear();
        for _ in 0..self.random.below(6) {
            let name = self.other_name(&names);
            names.push(name.clone());
            let kind = self.random.byte(3);
            self.plan.lookups.push(Lookup { name, kind });
        }
    }

    /// Nodes in text order: each new one is a child of a list that is still open.
    fn tree(&mut self) {
        let mut open = vec![0];
        let root = self.blank(None);
        self.plan.nodes.push(root);
        while self.plan.nodes.len() < self.shape.nodes && !open.is_empty() {
            if self.random.chance(25) {
                open.pop();
                continue;
            }
            let parent = open[open.len() - 1];
            let node = self.blank(Some(parent));
            let number = self.plan.nodes.len();
            self.plan.nodes.push(node);
            if open.len() < 15 && self.random.chance(40) {
                open.push(number);
            } else {
                self.plan.nodes[number].body = Body::Command(usize::MAX);
            }
        }
    }

    fn blank(&mut self, parent: Option<usize>) -> Node {
        let siblings: Vec<String> = parent.map_or(Vec::new(), |parent| {
            self.plan.children(parent).filter_map(|child| self.plan.nodes[child].name.clone()).collect()
        });
        let name = if self.random.chance(80) { Some(self.other_name(&siblings)) } else { None };
        Node { name, parent, attributes: Vec::new(), body: Body::List }
    }

    /// Blocks of variables, in text order.
    fn variables(&mut self) {
        for owner in 0..self.plan.nodes.len() {
            let mut names = Vec::new();
            while self.random.chance(30) && self.plan.variables.len() < 120 {
                let kind = self.random.byte(3);
                let mut block = Vec::new();
                for _ in 0..1 + self.random.below(3) {
                    let name = self.other_name(&names);
                    names.push(name.clone());
                    let initial =
                        if self.random.chance(80) { Some(self.random.constant(kind)) } else { None };
                    block.push(self.plan.variables.len());
                    self.plan.variables.push(Variable { name, kind, owner, initial });
                }
                self.plan.nodes[owner].attributes.push(Attribute::Variables(block));
            }
        }
    }

    /// Conditions and priority among the node's blocks, and its body.
    fn dress(&mut self, node: usize) {
        let mut more = Vec::new();
        for number in 0..7 {
            if self.random.chance(20) {
                let e = self.expr(node, BOOL, self.shape.deep);
                more.push(Attribute::Condition(number, e, number == 6 && self.random.chance(50)));
            }
        }
        if self.random.chance(30) {
            more.push(Attribute::Priority(self.random.pick(&[0, 1, 5, 65535])));
        }
        for attribute in more {
            let place = self.random.below(self.plan.nodes[node].attributes.len() + 1);
            self.plan.nodes[node].attributes.insert(place, attribute);
        }
        if matches!(self.plan.nodes[node].body, Body::Command(_)) {
            self.plan.nodes[node].body = self.body(node);
        }
    }

    fn body(&mut self, node: usize) -> Body {
        let near = self.near(node);
        if !near.is_empty() && self.random.chance(60) {
            let variable = self.random.pick(&near);
            let e = self.expr(node, self.plan.variables[variable].kind, self.shape.deep);
            return Body::Assignment(variable, e);
        }
        match self.plan.commands.len() {
            0 => Body::List,
            count => Body::Command(self.random.below(count)),
        }
    }

    /// The variables that a node can name.
    fn near(&self, node: usize) -> Vec<usize> {
        let meant =
            |number: &usize| self.plan.variable(node, &self.plan.variables[*number].name) == Some(*number);
        (0..self.plan.variables.len()).filter(meant).collect()
    }

    fn expr(&mut self, node: usize, kind: u8, deep: usize) -> Expr {
        let kind = if self.random.chance(self.shape.careless) { self.random.byte(3) } else { kind };
        if deep == 0 || (deep < DEEP && self.random.chance(30)) {
            return self.leaf(node, kind);
        }
        if kind == BOOL && self.random.chance(25) {
            return Expr::Not(Box::new(self.expr(node, BOOL, deep - 1)));
        }
        let (operators, operands): (&[&str], u8) = match (kind, self.random.below(3)) {
            (BOOL, 0) => (&["AND", "&&", "OR", "||"], BOOL),
            (BOOL, 1) => (&["==", "!="], self.random.byte(3)),
            (BOOL, _) => (&["<", "<=", ">", ">="], 1 + self.random.byte(2)),
            _ => (&["+", "-", "*"], kind),
        };
        let operator = self.random.pick(operators);
        let left = self.expr(node, operands, deep - 1);
        let right = self.expr(node, operands, if deep < DEEP { deep - 1 } else { 1 });
        Expr::Two(operator, Box::new(left), Box::new(right))
    }

    fn leaf(&mut self, node: usize, kind: u8) -> Expr {
        let of_kind = |number: &usize| self.plan.variables[*number].kind == kind;
        let near: Vec<usize> = self.near(node).into_iter().filter(of_kind).collect();
        let looks: Vec<usize> =
            (0..self.plan.lookups.len()).filter(|&look| self.plan.lookups[look].kind == kind).collect();
        match self.random.below(10) {
            0..4 if !near.is_empty() => Expr::Variable(self.random.pick(&near)),
            4..6 if !looks.is_empty() => Expr::Lookup(self.random.pick(&looks), self.random.chance(30)),
            6..9 if kind == BOOL => self.question(node),
            9 => Expr::Unknown(kind),
            _ => Expr::Constant(kind, self.number(kind)),
        }
    }

    /// A constant; a Real is often one that a short decimal writes.
    fn number(&mut self, kind: u8) -> u64 {
        if kind == REAL && self.random.chance(50) {
            let digits = self.random.bits() % 10u64.pow(1 + self.random.below(14) as u32);
            let places = self.random.below(15) as i32;
            return (digits as f64 / 10f64.powi(places)).to_bits();
        }
        self.random.constant(kind)
    }

    /// A question to a node that can be named from here.
    fn question(&mut self, node: usize) -> Expr {
        let other = self.random.below(self.plan.nodes.len());
        let paths = self.plan.paths(node, other);
        if paths.is_empty() {
            return Expr::Constant(BOOL, self.random.bits() & 1);
        }
        let path = paths[self.random.below(paths.len())].clone();
        let operator = 3 + self.random.byte(3);
        let code = self.random.half([7, 4, 6][usize::from(operator) - 3]);
        Expr::Question(operator, path, other, code, self.random.chance(30))
    }
}
