//! Working out an expression in a state.

use crate::image::{Expression, Image};
use crate::value::{self, Value};
use samblokur_sys::State;
use std::ops::{Add, Mul, Sub};

/// "an expression tree is at most 12 deep".
pub const DEEPEST: u8 = 12;

/// The value of an entry; a clash where the depth is exhausted.
pub fn work_out(image: &Image, state: &State, entry: u16) -> Value {
    within(image, state, entry, DEEPEST)
}

fn within(image: &Image, state: &State, entry: u16, depth: u8) -> Value {
    if depth == 0 {
        return Value::Clash;
    }
    let e = image.expression(usize::from(entry));
    if e.operator < 6 {
        return leaf(state, &e);
    }
    let a = within(image, state, e.a, depth - 1);
    if e.operator == 6 {
        return value::not(a);
    }
    let b = within(image, state, e.b, depth - 1);
    match e.operator {
        7 => value::and(a, b),
        8 => value::or(a, b),
        9 => value::equal(a, b),
        10 => value::compare(a, b, i64::lt, f64::lt),
        11 => value::compare(a, b, i64::le, f64::le),
        12 => value::combine(a, b, i64::checked_add, f64::add),
        13 => value::combine(a, b, i64::checked_sub, f64::sub),
        14 => value::combine(a, b, i64::checked_mul, f64::mul),
        _ => Value::Clash,
    }
}

fn leaf(state: &State, e: &Expression) -> Value {
    let a = usize::from(e.a);
    match e.operator {
        0 if e.b == 0 => Value::Unknown,
        0 => Value::of_cell(e.kind + 1, e.constant),
        1 => Value::of_cell(state.vartags[a], state.varbits[a]),
        2 => Value::of_cell(state.looktags[a], state.lookbits[a]),
        3 => Value::Bool(u16::from(state.status[a]) == e.b),
        4 => Value::Bool(u16::from(state.outcome[a]) == e.b),
        _ => Value::Bool(u16::from(state.failure[a]) == e.b),
    }
}
