//! Expressions of the generator.

/// An expression; names are kept beside the numbers that they mean.
#[derive(Clone)]
pub enum Expr {
    Constant(u8, u64),
    Unknown(u8),
    Variable(usize),
    Lookup(usize, bool),
    /// The operator 3, 4 or 5, the path, the node that it means, the code, and whether it is `!=`.
    Question(u8, Vec<String>, usize, u16, bool),
    Not(Box<Expr>),
    Two(&'static str, Box<Expr>, Box<Expr>),
}

/// How strongly an operator binds.
pub fn strength(operator: &str) -> u8 {
    match operator {
        "||" | "OR" => 1,
        "&&" | "AND" => 2,
        "+" | "-" => 5,
        "*" => 6,
        _ => 4,
    }
}
