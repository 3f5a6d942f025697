//! Random plans that are admitted by construction, and one whose expression unfolds.

use crate::draft::{Draft, Expression, Lookup, NONE, Node, Variable};
use crate::random::Random;

const LIST: u8 = 0;
const COMMAND: u8 = 1;
const ASSIGNMENT: u8 = 2;

const BOOL: u8 = 0;

/// The plan so far, and for each entry its depth and the variables that it reads, a bit each.
struct Maker<'r> {
    random: &'r mut Random,
    draft: Draft,
    depths: Vec<u8>,
    reads: Vec<u128>,
}

/// A plan that passes the check.
pub fn plan(random: &mut Random) -> Draft {
    let mut maker = Maker { random, draft: Draft::default(), depths: Vec::new(), reads: Vec::new() };
    maker.tree();
    maker.variables();
    maker.lookups();
    for node in 0..maker.draft.nodes.len() {
        maker.dress(node);
    }
    maker.draft
}

/// 256 nodes whose every condition is the last of 12 entries, each the AND of the one before it with itself; the first
/// reads a variable of this owner.
pub fn unfolding(owner: u16) -> Draft {
    let mut draft = Draft::default();
    draft.vars.push(Variable { kind: BOOL, known: 1, owner, spare: 0, initial: 1 });
    let mut last = draft.push(Expression { operator: 1, ..Expression::default() });
    for _ in 1..12 {
        last = draft.push(Expression { operator: 7, a: last, b: last, ..Expression::default() });
    }
    draft.nodes = vec![
        Node {
            parent: 0,
            body: LIST,
            spare: 0,
            priority: 0,
            conditions: [last; 7],
            what: NONE,
            value: NONE
        };
        256
    ];
    draft.nodes[0].parent = NONE;
    draft
}

impl Maker<'_> {
    /// Mostly small; every so often as large as the limits allow.
    fn tree(&mut self) {
        let count = match self.random.below(100) {
            0 => 256,
            1..6 => 1 + self.random.below(100),
            6..16 => 1,
            _ => 2 + self.random.below(12),
        };
        let mut lists: Vec<u16> = Vec::new();
        for i in 0..count {
            let body = self.body(i, count);
            let parent = if i == 0 { NONE } else { self.random.pick(&lists) };
            if body == LIST {
                lists.push(i as u16);
            }
            let priority = self.random.half(4);
            self.draft.nodes.push(Node {
                parent,
                body,
                spare: 0,
                priority,
                conditions: [NONE; 7],
                what: NONE,
                value: NONE,
            });
        }
    }

    fn body(&mut self, node: usize, count: usize) -> u8 {
        match self.random.below(100) {
            _ if node == 0 && count > 1 => LIST,
            0..30 => LIST,
            30..60 => COMMAND,
            _ => ASSIGNMENT,
        }
    }

    fn variables(&mut self) {
        let count = if self.random.chance(2) { 128 } else { self.random.below(6) };
        for _ in 0..count {
            let nodes = self.draft.nodes.len() as u16;
            let owner = if self.random.chance(60) { 0 } else { self.random.half(nodes) };
            let kind = self.random.byte(3);
            let known = u8::from(self.random.chance(80));
            let initial = if known == 1 { self.random.constant(kind) } else { 0 };
            self.draft.vars.push(Variable { kind, known, owner, spare: 0, initial });
        }
    }

    fn lookups(&mut self) {
        let count = if self.random.chance(2) { 64 } else { self.random.below(5) };
        for _ in 0..count {
            let kind = self.random.byte(3);
            self.draft.looks.push(Lookup { kind, spare: 0 });
        }
    }

    /// Gives a node its target, value and conditions. An assignment that reaches no variable becomes a command.
    fn dress(&mut self, i: usize) {
        let node = i as u16;
        let near: Vec<u16> = (0..self.draft.vars.len() as u16)
            .filter(|&v| self.draft.reaches(node, self.draft.vars[usize::from(v)].owner))
            .collect();
        match self.draft.nodes[i].body {
            ASSIGNMENT if !near.is_empty() => {
                let what = self.random.pick(&near);
                let kind = self.draft.vars[usize::from(what)].kind;
                self.draft.nodes[i].what = what;
                self.draft.nodes[i].value = self.tree_of(kind, 3, &near);
            }
            LIST => {}
            _ => {
                self.draft.nodes[i].body = COMMAND;
                self.draft.nodes[i].what = self.random.half(NONE);
            }
        }
        let large = self.draft.nodes.len() > 30;
        for (condition, percent) in [8, 25, 15, 25, 20, 20, 25].into_iter().enumerate() {
            if self.random.chance(percent) && !(large && self.random.chance(70)) {
                let deep = if self.random.chance(4) { 11 } else { 3 };
                self.draft.nodes[i].conditions[condition] = self.tree_of(BOOL, deep, &near);
            }
        }
    }

    /// An entry of a kind that reads only variables in reach, sometimes one that is there already.
    fn tree_of(&mut self, kind: u8, deep: u8, near: &[u16]) -> u16 {
        let reach = near.iter().fold(0u128, |all, &v| all | 1 << v);
        if self.random.chance(30) || self.draft.exprs.len() > 1900 {
            let fits = |&e: &usize| {
                self.draft.exprs[e].kind == kind && self.reads[e] & !reach == 0 && self.depths[e] <= deep + 1
            };
            let there: Vec<usize> = (0..self.draft.exprs.len()).filter(fits).collect();
            if !there.is_empty() {
                return self.random.pick(&there) as u16;
            }
        }
        if deep == 0 || self.random.chance(35) {
            return self.leaf(kind, near);
        }
        if kind == BOOL { self.truth(deep - 1, near) } else { self.number(kind, deep - 1, near) }
    }

    fn truth(&mut self, deep: u8, near: &[u16]) -> u16 {
        let operator = 6 + self.random.byte(6);
        let operands = match operator {
            6..=8 => BOOL,
            9 => self.random.byte(3),
            _ => 1 + self.random.byte(2),
        };
        let a = self.tree_of(operands, deep, near);
        let b = if operator == 6 { 0 } else { self.tree_of(operands, deep.min(2), near) };
        self.keep(Expression { operator, kind: BOOL, a, b, ..Expression::default() })
    }

    fn number(&mut self, kind: u8, deep: u8, near: &[u16]) -> u16 {
        let operator = 12 + self.random.byte(3);
        let a = self.tree_of(kind, deep, near);
        let b = self.tree_of(kind, deep.min(2), near);
        self.keep(Expression { operator, kind, a, b, ..Expression::default() })
    }

    /// A variable, a lookup, a node's code, or else a constant.
    fn leaf(&mut self, kind: u8, near: &[u16]) -> u16 {
        let blank = Expression { kind, ..Expression::default() };
        let vars: Vec<u16> =
            near.iter().copied().filter(|&v| self.draft.vars[usize::from(v)].kind == kind).collect();
        let looks: Vec<u16> = (0..self.draft.looks.len() as u16)
            .filter(|&l| self.draft.looks[usize::from(l)].kind == kind)
            .collect();
        let nodes = self.draft.nodes.len() as u16;
        let leaf = match self.random.below(10) {
            0..4 if !vars.is_empty() => Expression { operator: 1, a: self.random.pick(&vars), ..blank },
            4..7 if !looks.is_empty() => Expression { operator: 2, a: self.random.pick(&looks), ..blank },
            7..9 if kind == BOOL => {
                let operator = 3 + self.random.byte(3);
                let codes = [7, 4, 6][usize::from(operator) - 3];
                Expression { operator, a: self.random.half(nodes), b: self.random.half(codes), ..blank }
            }
            _ if self.random.chance(15) => blank,
            _ if kind == BOOL => Expression { b: 1, constant: u64::from(self.random.chance(75)), ..blank },
            _ => Expression { b: 1, constant: self.random.constant(kind), ..blank },
        };
        self.keep(leaf)
    }

    fn keep(&mut self, e: Expression) -> u16 {
        let (a, b) = (usize::from(e.a), usize::from(e.b));
        let (depth, reads) = match e.operator {
            1 => (1, 1 << e.a),
            0..=5 => (1, 0),
            6 => (1 + self.depths[a], self.reads[a]),
            _ => (1 + self.depths[a].max(self.depths[b]), self.reads[a] | self.reads[b]),
        };
        self.depths.push(depth);
        self.reads.push(reads);
        self.draft.push(e)
    }
}
