//! A plan as tokens, with redundant parentheses here and there.

use crate::expr::{Expr, strength};
use crate::numbers::{constant, whole_real, zeros};
use crate::plan::{Attribute, Body, INT, Plan, Variable};
use differ::Random;

const CONDITIONS: [&str; 7] = [
    "SkipCondition",
    "StartCondition",
    "PreCondition",
    "InvariantCondition",
    "EndCondition",
    "PostCondition",
    "RepeatCondition",
];
const CODES: [&[&str]; 3] = [
    &["INACTIVE", "WAITING", "EXECUTING", "FINISHING", "FAILING", "ITERATION_ENDED", "FINISHED"],
    &["NONE", "SUCCESS", "FAILURE", "SKIPPED"],
    &["NONE", "PRE", "POST", "INVARIANT", "PARENT", "WRITE_LOST"],
];

/// The tokens of a plan.
pub fn tokens(random: &mut Random, plan: &Plan) -> Vec<String> {
    let mut printer = Printer { random, plan, tokens: Vec::new() };
    printer.declarations();
    printer.node(0);
    printer.tokens
}

struct Printer<'p> {
    random: &'p mut Random,
    plan: &'p Plan,
    tokens: Vec<String>,
}

impl Printer<'_> {
    fn say(&mut self, words: &[&str]) {
        self.tokens.extend(words.iter().map(|word| word.to_string()));
    }

    /// Commands and lookups, each in its own order, mixed.
    fn declarations(&mut self) {
        let plan = self.plan;
        let (mut commands, mut lookups) = (plan.commands.iter().peekable(), plan.lookups.iter().peekable());
        while commands.peek().is_some() || lookups.peek().is_some() {
            let command =
                if lookups.peek().is_none() || self.random.chance(50) { commands.next() } else { None };
            if let Some(command) = command {
                let number = zeros(self.random, u64::from(command.number));
                self.say(&["Command", &command.name, "=", &number, ";"]);
            } else if let Some(lookup) = lookups.next() {
                self.say(&[kind_word(lookup.kind), "Lookup", &lookup.name, ";"]);
            }
        }
    }

    fn node(&mut self, node: usize) {
        let from = &self.plan.nodes[node];
        if let Some(name) = &from.name {
            self.say(&[name, ":"]);
        }
        self.say(&["{"]);
        for attribute in &from.attributes {
            self.attribute(attribute);
        }
        match &from.body {
            Body::List => {
                self.say(&["NodeList", ":", "{"]);
                for child in self.plan.children(node) {
                    self.node(child);
                }
                self.say(&["}"]);
            }
            Body::Command(command) => {
                let name = &self.plan.commands[*command].name;
                self.say(&["Command", ":", name, "(", ")", ";"]);
            }
            Body::Assignment(variable, e) => {
                let name = &self.plan.variables[*variable].name;
                self.say(&["Assignment", ":", name, "="]);
                self.expr(e, 1, 0);
                self.say(&[";"]);
            }
        }
        self.say(&["}"]);
    }

    fn attribute(&mut self, attribute: &Attribute) {
        match attribute {
            Attribute::Condition(number, e, until) => {
                let word = if *until { "RepeatUntilCondition" } else { CONDITIONS[*number] };
                self.say(&[word, ":"]);
                self.expr(e, 1, 0);
                self.say(&[";"]);
            }
            Attribute::Priority(priority) => {
                let number = zeros(self.random, u64::from(*priority));
                self.say(&["Priority", ":", &number, ";"]);
            }
            Attribute::Variables(block) => {
                let kind = self.plan.variables[block[0]].kind;
                self.say(&[kind_word(kind), ":", "{"]);
                for &number in block {
                    self.variable(&self.plan.variables[number]);
                }
                self.say(&["}"]);
            }
        }
    }

    fn variable(&mut self, variable: &Variable) {
        self.say(&[&variable.name]);
        match variable.initial {
            Some(bits) => {
                self.say(&["="]);
                let whole = variable.kind > INT && self.random.chance(50);
                let number = if whole { whole_real(bits) } else { None };
                let number = number.unwrap_or_else(|| constant(self.random, variable.kind, bits));
                self.tokens.extend(number);
            }
            None if self.random.chance(50) => self.say(&["=", "UNKNOWN"]),
            None => {}
        }
        self.say(&[";"]);
    }

    /// An expression where operators of strength `least` or more would go on with it, and one of strength `after` follows.
    fn expr(&mut self, e: &Expr, least: u8, after: u8) {
        let needs = match e {
            Expr::Not(_) => after >= 4,
            Expr::Two(operator, ..) => strength(operator) < least,
            _ => false,
        };
        if needs || self.random.chance(12) {
            self.say(&["("]);
            self.expr(e, 1, 0);
            self.say(&[")"]);
            return;
        }
        match e {
            Expr::Not(operand) => {
                let word = self.random.pick(&["NOT", "!"]);
                self.say(&[word]);
                self.expr(operand, 4, after);
            }
            Expr::Two(operator, left, right) => {
                self.expr(left, strength(operator), strength(operator));
                self.say(&[operator]);
                self.expr(right, strength(operator) + 1, after);
            }
            leaf => self.leaf(leaf),
        }
    }

    fn leaf(&mut self, e: &Expr) {
        match e {
            Expr::Constant(kind, bits) => {
                let number = constant(self.random, *kind, *bits);
                self.tokens.extend(number);
            }
            Expr::Unknown(kind) => self.say(&[kind_word(*kind), "UNKNOWN"]),
            Expr::Variable(number) => self.say(&[&self.plan.variables[*number].name]),
            Expr::Lookup(number, on_change) => {
                let word = if *on_change { "LookupOnChange" } else { "LookupNow" };
                self.say(&[word, "(", &self.plan.lookups[*number].name, ")"]);
            }
            Expr::Question(operator, path, _, code, is_negated) => {
                for name in path {
                    self.say(&[name, "."]);
                }
                let failure = self.random.pick(&["failure", "failureType"]);
                let asked = ["state", "outcome", failure][usize::from(*operator) - 3];
                let word = CODES[usize::from(*operator) - 3][usize::from(*code)];
                self.say(&[asked, if *is_negated { "!=" } else { "==" }, word]);
            }
            Expr::Not(_) | Expr::Two(..) => {}
        }
    }
}

fn kind_word(kind: u8) -> &'static str {
    ["Boolean", "Integer", "Real"][usize::from(kind)]
}
