//! The text against the grammar: its outline, or 40. One loop over nodes and one over an expression's tokens, so
//! that no text is too deep.

use crate::cursor::Miss;
use crate::lead::Lead::{self, Name, The};
use crate::outline::{Body, Command, Lookup, Node, Outline, What};
use crate::parser::{Parser, kind};

/// The outline of a text of the grammar.
pub fn recognise(text: &[u8]) -> Result<Outline, Miss> {
    let mut parser = Parser::new(text);
    parser.declarations()?;
    parser.tree()?;
    parser.cursor.end()?;
    Ok(parser.outline)
}

/// The place of the priority among the attributes that a node has.
const PRIORITY: usize = 7;

const CONDITIONS: [(&str, usize); 8] = [
    ("SkipCondition", 0),
    ("StartCondition", 1),
    ("PreCondition", 2),
    ("InvariantCondition", 3),
    ("EndCondition", 4),
    ("PostCondition", 5),
    ("RepeatCondition", 6),
    ("RepeatUntilCondition", 6),
];

impl Parser<'_> {
    fn declarations(&mut self) -> Result<(), Miss> {
        loop {
            match self.cursor.token() {
                b"Command" => self.command()?,
                token => match kind(token) {
                    Some(kind) => self.lookup(kind)?,
                    None => return Ok(()),
                },
            }
        }
    }

    /// `Command` Name `=` 0..65534 `;`
    fn command(&mut self) -> Result<(), Miss> {
        self.cursor.advance();
        let name = self.cursor.name()?;
        self.cursor.the("=")?;
        let number = self.cursor.whole(65534)? as u16;
        self.cursor.the(";")?;
        self.mention(name.clone(), What::Command(self.outline.commands.len()));
        self.outline.commands.push(Command { name, number });
        Ok(())
    }

    /// Kind `Lookup` Name `;`
    fn lookup(&mut self, kind: u8) -> Result<(), Miss> {
        self.cursor.advance();
        self.cursor.the("Lookup")?;
        let name = self.cursor.name()?;
        self.cursor.the(";")?;
        self.mention(name.clone(), What::Lookup(self.outline.lookups.len()));
        self.outline.lookups.push(Lookup { name, kind });
        Ok(())
    }

    /// The outermost node, and all below it.
    fn tree(&mut self) -> Result<(), Miss> {
        let mut open = Vec::new();
        loop {
            let node = self.head(&open)?;
            if self.attributes(node)? {
                open.push(node);
            }
            while !open.is_empty() && self.cursor.token() == b"}" {
                self.cursor.advance();
                self.cursor.the("}")?;
                open.pop();
            }
            if open.is_empty() {
                return Ok(());
            }
        }
    }

    /// (Name `:`)? `{`, within the lists that are open.
    fn head(&mut self, open: &[usize]) -> Result<usize, Miss> {
        let begins = self.cursor.span();
        let is_named = self.cursor.token() != b"{";
        let number = self.outline.nodes.len();
        if is_named {
            let expected: &[Lead] = if open.is_empty() { &OUTSIDE } else { &INSIDE };
            let name = self.cursor.name_or(expected)?;
            self.cursor.the(":")?;
            self.mention(name, What::Node(number));
        }
        self.cursor.the("{")?;
        let parent = open.last().copied();
        let (level, conditions, body) = (open.len() + 1, Default::default(), Body::List);
        self.outline.nodes.push(Node { begins, is_named, parent, level, priority: 0, conditions, body });
        Ok(number)
    }

    /// Attribute* Body; answers whether the body is a list, which is open then. Another body's `}` is taken.
    fn attributes(&mut self, node: usize) -> Result<bool, Miss> {
        let mut met = [false; 8];
        loop {
            let token = self.cursor.token();
            if let Some(condition) = condition(token).filter(|&condition| !met[condition]) {
                met[condition] = true;
                self.cursor.advance();
                self.cursor.the(":")?;
                let expression = self.expression(node)?;
                self.outline.nodes[node].conditions[condition] = Some(expression);
                continue;
            }
            match token {
                b"Priority" if !met[PRIORITY] => {
                    met[PRIORITY] = true;
                    self.priority(node)?;
                }
                b"NodeList" | b"Command" | b"Assignment" => return self.body(node),
                _ => match kind(token) {
                    Some(kind) => self.variables(node, kind)?,
                    None => return Err(self.cursor.miss(&attribute_leads(&met))),
                },
            }
        }
    }

    /// `Priority` `:` 0..65535 `;`
    fn priority(&mut self, node: usize) -> Result<(), Miss> {
        self.cursor.advance();
        self.cursor.the(":")?;
        self.outline.nodes[node].priority = self.cursor.whole(65535)? as u16;
        self.cursor.the(";")
    }

    fn body(&mut self, node: usize) -> Result<bool, Miss> {
        let word = self.cursor.token();
        self.cursor.advance();
        self.cursor.the(":")?;
        let body = match word {
            b"NodeList" => {
                self.cursor.the("{")?;
                return Ok(true);
            }
            b"Command" => self.call()?,
            _ => self.assignment(node)?,
        };
        self.outline.nodes[node].body = body;
        self.cursor.the("}")?;
        Ok(false)
    }

    /// Name `(` `)` `;`
    fn call(&mut self) -> Result<Body, Miss> {
        let name = self.cursor.name()?;
        let command = self.mention(name, What::UseOfCommand);
        self.cursor.the("(")?;
        self.cursor.the(")")?;
        self.cursor.the(";")?;
        Ok(Body::Command(command))
    }

    /// Name `=` Expression `;`
    fn assignment(&mut self, node: usize) -> Result<Body, Miss> {
        let name = self.cursor.name()?;
        let variable = self.mention(name, What::UseOfVariable(node));
        self.cursor.the("=")?;
        Ok(Body::Assignment(variable, self.expression(node)?))
    }
}

const OUTSIDE: [Lead; 6] = [The("{"), Name, The("Command"), The("Boolean"), The("Integer"), The("Real")];
const INSIDE: [Lead; 3] = [The("}"), The("{"), Name];

/// What can stand in a node that has these attributes.
fn attribute_leads(met: &[bool; 8]) -> Vec<Lead> {
    let conditions = CONDITIONS.iter().filter(|(_, number)| !met[*number]).map(|(word, _)| The(word));
    let priority = (!met[PRIORITY]).then_some(The("Priority"));
    let always = ["Boolean", "Integer", "Real", "NodeList", "Command", "Assignment"].map(The);
    conditions.chain(priority).chain(always).collect()
}

fn condition(token: &[u8]) -> Option<usize> {
    CONDITIONS.iter().find(|(word, _)| word.as_bytes() == token).map(|&(_, number)| number)
}
