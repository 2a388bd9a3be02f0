//! What calls answer.
use crate::raw;
use std::error::Error;
use std::fmt;

/// The range of a line: it lies within `margin` of `middle`, both in counts of 1/65,536.
#[derive(Clone, Copy, Debug, PartialEq, Eq, Hash)]
pub struct Report {
    /// The middle of the range, rounded down to a count.
    pub middle: i64,
    /// How far the ends of the range may lie from the middle.
    pub margin: i64,
}

/// Shown as the program shows it: `middle 262144 margin 65536`.
impl fmt::Display for Report {
    fn fmt(&self, f: &mut fmt::Formatter<'_>) -> fmt::Result {
        let Report { middle, margin } = self;
        write!(f, "middle {middle} margin {margin}")
    }
}

/// Why a call was refused.
#[derive(Clone, Copy, Debug, PartialEq, Eq, Hash)]
pub struct Refusal {
    /// The number of the refusal, 1 to 17.
    pub number: u32,
    /// Where: a channel, a line, a byte or how many bytes are needed, as the number has it.
    pub place: usize,
}

impl Refusal {
    /// The cause in words.
    #[must_use]
    pub fn cause(&self) -> &'static str {
        match self.number {
            1 => "not 1 to 8 channels, or lists of unequal length",
            2 => "no such channel",
            3 => "a number beyond the counts",
            4 => "lower end above upper end",
            5 => "centre outside its range",
            6 => "fewer than 64 lines lent",
            7 => "64 lines held",
            8 => "operand not an earlier line",
            9 => "divisor holds 0",
            10 => "the result has no span",
            11 => "no such line",
            12 => "lines are held",
            13 => "bytes end too early",
            14 => "number not shortest, or too large",
            15 => "operation above 10",
            16 if self.place == 0 => "not 1 to 64 lines",
            16 => "bytes left over",
            17 => "too few bytes to write to",
            _ => "no known cause",
        }
    }
}

/// Shown as the program shows it: `refused 9 at 2 (divisor holds 0)`.
impl fmt::Display for Refusal {
    fn fmt(&self, f: &mut fmt::Formatter<'_>) -> fmt::Result {
        let Refusal { number, place } = self;
        write!(f, "refused {number} at {place} ({})", self.cause())
    }
}

impl Error for Refusal {}

impl raw::Answer {
    /// The answer, unless the call was refused.
    pub(crate) fn taken(self) -> Result<raw::Answer, Refusal> {
        match self.refusal {
            0 => Ok(self),
            number => Err(Refusal { number, place: self.place }),
        }
    }

    pub(crate) fn reported(self) -> Result<Report, Refusal> {
        self.taken().map(|answer| Report { middle: answer.middle, margin: answer.margin })
    }
}
