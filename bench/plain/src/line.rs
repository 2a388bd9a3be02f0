//! Lines of a formula.

use crate::memory;

/// The greatest operation number.
pub const LAST_OPERATION: u32 = 10;

/// An operation with its operands: numbers of earlier lines, a number of a channel, or a count. Whether there are such lines and such a
/// channel is not known yet.
#[derive(Clone, Copy, Debug, PartialEq, Eq)]
pub enum Line {
    Channel(usize),
    Constant(i64),
    Sum(usize, usize),
    Difference(usize, usize),
    Product(usize, usize),
    Quotient(usize, usize),
    Square(usize),
    Magnitude(usize),
    Greater(usize, usize),
    Lesser(usize, usize),
    Branch(usize, usize, usize),
}

impl Line {
    /// A stored line. An operation that there is not counts as a branch.
    pub fn from_memory(stored: &memory::Line) -> Self {
        let &memory::Line { operation, constant, a, b, c } = stored;
        match operation {
            0 => Line::Channel(a),
            1 => Line::Constant(constant),
            2 => Line::Sum(a, b),
            3 => Line::Difference(a, b),
            4 => Line::Product(a, b),
            5 => Line::Quotient(a, b),
            6 => Line::Square(a),
            7 => Line::Magnitude(a),
            8 => Line::Greater(a, b),
            9 => Line::Lesser(a, b),
            _ => Line::Branch(a, b, c),
        }
    }

    pub fn to_memory(self) -> memory::Line {
        let blank = memory::Line { operation: self.operation(), ..Default::default() };
        match self {
            Line::Constant(constant) => memory::Line { constant, ..blank },
            Line::Channel(a) | Line::Square(a) | Line::Magnitude(a) => memory::Line { a, ..blank },
            Line::Sum(a, b)
            | Line::Difference(a, b)
            | Line::Product(a, b)
            | Line::Quotient(a, b)
            | Line::Greater(a, b)
            | Line::Lesser(a, b) => memory::Line { a, b, ..blank },
            Line::Branch(a, b, c) => memory::Line { a, b, c, ..blank },
        }
    }

    pub fn operation(self) -> u32 {
        match self {
            Line::Channel(_) => 0,
            Line::Constant(_) => 1,
            Line::Sum(..) => 2,
            Line::Difference(..) => 3,
            Line::Product(..) => 4,
            Line::Quotient(..) => 5,
            Line::Square(_) => 6,
            Line::Magnitude(_) => 7,
            Line::Greater(..) => 8,
            Line::Lesser(..) => 9,
            Line::Branch(..) => LAST_OPERATION,
        }
    }
}

/// How many operands an operation has.
pub fn operands(operation: u32) -> usize {
    match operation {
        0 | 1 | 6 | 7 => 1,
        LAST_OPERATION => 3,
        _ => 2,
    }
}
