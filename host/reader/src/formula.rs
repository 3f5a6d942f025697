//! Expressions as the grammar has them: flat, binding comes later.

use crate::cursor::Miss;
use crate::initial::{BOOL, INT, INTEGER, NEGATIVE, REAL, integer, signed_real};
use crate::lead::Lead::{self, Decimal, Name, The, UpTo};
use crate::lead::{decimal, is_name};
use crate::outline::{Expression, Item, MentionId, Operator, Question, Sort, Span, What};
use crate::parser::{Parser, kind};

const STATES: [&str; 7] =
    ["INACTIVE", "WAITING", "EXECUTING", "FINISHING", "FAILING", "ITERATION_ENDED", "FINISHED"];
const OUTCOMES: [&str; 4] = ["NONE", "SUCCESS", "FAILURE", "SKIPPED"];
const FAILURES: [&str; 6] = ["NONE", "PRE", "POST", "INVARIANT", "PARENT", "WRITE_LOST"];

impl Parser<'_> {
    /// Operand (Operator Operand)* `;`
    pub fn expression(&mut self, node: usize) -> Result<Expression, Miss> {
        let from = self.outline.items.len();
        let mut open = 0usize;
        loop {
            open += self.prefixes();
            self.operand(node)?;
            while open > 0 && self.cursor.token() == b")" {
                self.take(Sort::Close);
                open -= 1;
            }
            if open == 0 && self.cursor.token() == b";" {
                self.cursor.advance();
                return Ok(from..self.outline.items.len());
            }
            let Some(operator) = Operator::of(self.cursor.token()) else {
                let after_name =
                    matches!(self.outline.items.last(), Some(Item { sort: Sort::Variable(_), .. }));
                return Err(self.cursor.miss(&operation_leads(open > 0, after_name)));
            };
            self.outline.entries += if operator == Operator::Unequal { 2 } else { 1 };
            self.take(Sort::Operator(operator));
        }
    }

    /// A run of `(`, `NOT` and `!`; how many `(` it has.
    fn prefixes(&mut self) -> usize {
        let mut open = 0;
        loop {
            match self.cursor.token() {
                b"(" => {
                    self.take(Sort::Open);
                    open += 1;
                }
                b"NOT" | b"!" => {
                    self.outline.entries += 1;
                    self.take(Sort::Not);
                }
                _ => return open,
            }
        }
    }

    /// The token is an item by itself.
    fn take(&mut self, sort: Sort) {
        self.outline.items.push(Item { span: self.cursor.span(), sort });
        self.cursor.advance();
    }

    /// An operand that begins with no `(`, `NOT` or `!`.
    fn operand(&mut self, node: usize) -> Result<(), Miss> {
        self.outline.entries += 1;
        let token = self.cursor.token();
        let begins = self.cursor.span();
        match token {
            b"true" => self.take(Sort::Constant(BOOL, 1)),
            b"false" => self.take(Sort::Constant(BOOL, 0)),
            b"LookupNow" | b"LookupOnChange" => return self.lookup_used(begins),
            b"-" => {
                self.cursor.advance();
                return self.number(begins, true);
            }
            _ if is_name(token) => return self.named(node),
            _ => match kind(token) {
                Some(kind) => return self.unknown(begins, kind),
                None => return self.number(begins, false),
            },
        }
        Ok(())
    }

    /// The leaf that begins at a place and ends before the token that is next.
    fn leaf(&mut self, begins: Span, ends: usize, sort: Sort) {
        self.outline.items.push(Item { span: begins.start..ends, sort });
    }

    /// Kind `UNKNOWN`
    fn unknown(&mut self, begins: Span, kind: u8) -> Result<(), Miss> {
        self.cursor.advance();
        let ends = self.cursor.span().end;
        self.cursor.the("UNKNOWN")?;
        self.leaf(begins, ends, Sort::Unknown(kind));
        Ok(())
    }

    /// `LookupNow` `(` Name `)`
    fn lookup_used(&mut self, begins: Span) -> Result<(), Miss> {
        self.cursor.advance();
        self.cursor.the("(")?;
        let name = self.cursor.name()?;
        let lookup = self.mention(name, What::UseOfLookup);
        let ends = self.cursor.span().end;
        self.cursor.the(")")?;
        self.leaf(begins, ends, Sort::Lookup(lookup));
        Ok(())
    }

    /// A whole number, a decimal or bits, after its `-` or without one.
    fn number(&mut self, begins: Span, negative: bool) -> Result<(), Miss> {
        let token = self.cursor.token();
        if token == b"RealBits" {
            let (bits, ends) = self.bits(negative)?;
            self.leaf(begins, ends, Sort::Constant(REAL, bits));
            return Ok(());
        }
        let ends = self.cursor.span().end;
        let constant = if let Some(value) = integer(token, negative) {
            Sort::Constant(INT, value)
        } else if let Some(real) = decimal(token) {
            Sort::Constant(REAL, signed_real(real, negative))
        } else {
            return Err(self.cursor.miss(&number_leads(negative)));
        };
        self.cursor.advance();
        self.leaf(begins, ends, constant);
        Ok(())
    }

    /// A name: a variable, or the first part of a path.
    fn named(&mut self, node: usize) -> Result<(), Miss> {
        let begins = self.cursor.name()?;
        if self.cursor.token() != b"." {
            let variable = self.mention(begins.clone(), What::UseOfVariable(node));
            self.leaf(begins.clone(), begins.end, Sort::Variable(variable));
            return Ok(());
        }
        let mut path = self.mention(begins.clone(), What::UseOfNode(node));
        loop {
            self.cursor.the(".")?;
            match self.cursor.token() {
                b"state" => return self.question(begins, path, 3, &STATES),
                b"outcome" => return self.question(begins, path, 4, &OUTCOMES),
                b"failure" | b"failureType" => return self.question(begins, path, 5, &FAILURES),
                token if is_name(token) => {
                    let name = self.cursor.name()?;
                    path = self.mention(name, What::Below);
                }
                _ => return Err(self.cursor.miss(&PROPERTIES)),
            }
        }
    }

    /// Is State, and so on.
    fn question(
        &mut self,
        begins: Span,
        node: MentionId,
        operator: u8,
        words: &[&'static str],
    ) -> Result<(), Miss> {
        self.cursor.advance();
        let is_negated = match self.cursor.token() {
            b"==" => false,
            b"!=" => true,
            _ => return Err(self.cursor.miss(&[The("=="), The("!=")])),
        };
        self.cursor.advance();
        let code = words.iter().position(|word| word.as_bytes() == self.cursor.token());
        let leads = || words.iter().map(|word| The(word)).collect::<Vec<_>>();
        let code = code.ok_or_else(|| self.cursor.miss(&leads()))? as u16;
        self.outline.entries += usize::from(is_negated);
        let ends = self.cursor.span().end;
        self.cursor.advance();
        self.leaf(begins, ends, Sort::Question(Question { operator, node, code, is_negated }));
        Ok(())
    }
}

const PROPERTIES: [Lead; 5] = [The("state"), The("outcome"), The("failure"), The("failureType"), Name];

/// What can begin an operand, or follow its `-`.
fn number_leads(negative: bool) -> Vec<Lead> {
    if negative {
        return vec![UpTo(NEGATIVE), Decimal, The("RealBits")];
    }
    let words = ["true", "false", "(", "!", "NOT", "RealBits", "-", "LookupNow", "LookupOnChange"];
    let kinds = ["Boolean", "Integer", "Real"];
    let leads = [Name, UpTo(INTEGER), Decimal];
    leads.into_iter().chain(words.map(The)).chain(kinds.map(The)).collect()
}

/// What can follow an operand.
fn operation_leads(within: bool, after_name: bool) -> Vec<Lead> {
    let close = The(if within { ")" } else { ";" });
    let operators = ["||", "OR", "&&", "AND", "==", "!=", "<", "<=", ">", ">=", "+", "-", "*"];
    let path = after_name.then_some(The("."));
    [close].into_iter().chain(path).chain(operators.map(The)).collect()
}
