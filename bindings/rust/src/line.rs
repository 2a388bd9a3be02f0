//! Lines of formulas.
use crate::raw;

/// A line of a formula. Its operands are the numbers of earlier lines, and the first line is line 0.
#[derive(Clone, Copy, Debug, PartialEq, Eq, Hash)]
pub enum Line {
    /// A channel's reading.
    Channel(usize),
    /// A constant, in counts of 1/65,536.
    Constant(i64),
    /// The sum of two lines.
    Sum(usize, usize),
    /// The first line less the second.
    Difference(usize, usize),
    /// The product of two lines.
    Product(usize, usize),
    /// The first line divided by the second.
    Quotient(usize, usize),
    /// A line times itself.
    Square(usize),
    /// A line without its sign.
    Magnitude(usize),
    /// The greater of two lines.
    Greater(usize, usize),
    /// The lesser of two lines.
    Lesser(usize, usize),
    /// One of two lines, by the sign of a third.
    Branch {
        /// The line whose sign is looked at.
        sign: usize,
        /// The line to take where that is below 0.
        below: usize,
        /// The line to take otherwise.
        otherwise: usize,
    },
}

impl From<Line> for raw::Line {
    fn from(line: Line) -> raw::Line {
        let of = |operation, a, b, c| raw::Line { operation, constant: 0, a, b, c };
        match line {
            Line::Channel(channel) => of(0, channel, 0, 0),
            Line::Constant(constant) => raw::Line { constant, ..of(1, 0, 0, 0) },
            Line::Sum(a, b) => of(2, a, b, 0),
            Line::Difference(a, b) => of(3, a, b, 0),
            Line::Product(a, b) => of(4, a, b, 0),
            Line::Quotient(a, b) => of(5, a, b, 0),
            Line::Square(a) => of(6, a, 0, 0),
            Line::Magnitude(a) => of(7, a, 0, 0),
            Line::Greater(a, b) => of(8, a, b, 0),
            Line::Lesser(a, b) => of(9, a, b, 0),
            Line::Branch { sign, below, otherwise } => of(10, sign, below, otherwise),
        }
    }
}
