//! Variables with their initial values, and numbers.

use crate::cursor::Miss;
use crate::lead::Lead::{self, Decimal, Name, The, UpTo};
use crate::lead::{as_real, decimal, whole};
use crate::outline::{Variable, What};
use crate::parser::Parser;

/// The greatest Integer, and the greatest after a `-`.
pub const INTEGER: u64 = i64::MAX as u64;
pub const NEGATIVE: u64 = INTEGER + 1;
/// A whole number as a Real's initial value.
const WHOLE_REAL: u64 = 999_999_999_999_999;
/// The bits of the greatest finite Real.
const FINITE: u64 = 9_218_868_437_227_405_311;
/// A Real's bit of the sign.
const SIGN: u64 = 1 << 63;

pub const BOOL: u8 = 0;
pub const INT: u8 = 1;
pub const REAL: u8 = 2;

impl Parser<'_> {
    /// Kind `:` `{` Variable* `}`
    pub fn variables(&mut self, owner: usize, kind: u8) -> Result<(), Miss> {
        self.cursor.advance();
        self.cursor.the(":")?;
        self.cursor.the("{")?;
        while self.cursor.token() != b"}" {
            let name = self.cursor.name_or(&[The("}"), Name])?;
            self.mention(name.clone(), What::Variable(self.outline.variables.len()));
            let initial = match self.cursor.token() {
                b"=" => self.initial(kind)?,
                b";" => None,
                _ => return Err(self.cursor.miss(&[The(";"), The("=")])),
            };
            self.cursor.the(";")?;
            self.outline.variables.push(Variable { name, kind, owner, initial });
        }
        self.cursor.advance();
        Ok(())
    }

    /// `=` Value
    fn initial(&mut self, kind: u8) -> Result<Option<u64>, Miss> {
        self.cursor.advance();
        let token = self.cursor.token();
        let value = match (kind, token) {
            (_, b"UNKNOWN") => None,
            (BOOL, b"true") => Some(1),
            (BOOL, b"false") => Some(0),
            (BOOL, _) => return Err(self.cursor.miss(&[The("UNKNOWN"), The("true"), The("false")])),
            (_, b"-") => {
                self.cursor.advance();
                return self.initial_number(kind, true).map(Some);
            }
            _ => return self.initial_number(kind, false).map(Some),
        };
        self.cursor.advance();
        Ok(value)
    }

    fn initial_number(&mut self, kind: u8, negative: bool) -> Result<u64, Miss> {
        let token = self.cursor.token();
        if kind == REAL && token == b"RealBits" {
            return self.bits(negative).map(|(bits, _)| bits);
        }
        let value = match kind {
            INT => integer(token, negative),
            _ => decimal(token)
                .or_else(|| whole(token, WHOLE_REAL).and_then(|_| as_real(token)))
                .map(|real| signed_real(real, negative)),
        };
        let number: &[Lead] = match (kind, negative) {
            (INT, false) => &[The("UNKNOWN"), UpTo(INTEGER), The("-")],
            (INT, true) => &[UpTo(NEGATIVE)],
            (_, false) => &[The("UNKNOWN"), Decimal, UpTo(WHOLE_REAL), The("RealBits"), The("-")],
            (_, true) => &[Decimal, UpTo(WHOLE_REAL), The("RealBits")],
        };
        let value = value.ok_or_else(|| self.cursor.miss(number))?;
        self.cursor.advance();
        Ok(value)
    }

    /// `RealBits` `(` 0..9218868437227405311 `)`, and where it ends.
    pub fn bits(&mut self, negative: bool) -> Result<(u64, usize), Miss> {
        self.cursor.advance();
        self.cursor.the("(")?;
        let bits = self.cursor.whole(FINITE)?;
        let ends = self.cursor.span().end;
        self.cursor.the(")")?;
        Ok((if negative { bits | SIGN } else { bits }, ends))
    }
}

/// A whole number as two's complement.
pub fn integer(token: &[u8], negative: bool) -> Option<u64> {
    match negative {
        false => whole(token, INTEGER),
        true => whole(token, NEGATIVE).map(u64::wrapping_neg),
    }
}

/// A Real's bits with the sign.
pub fn signed_real(real: f64, negative: bool) -> u64 {
    if negative { real.to_bits() | SIGN } else { real.to_bits() }
}
