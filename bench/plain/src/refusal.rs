//! Why a call is refused, and where.

/// The causes, with their numbers.
#[repr(u32)]
#[derive(Clone, Copy, Debug, PartialEq, Eq)]
pub enum Cause {
    Channels = 1,
    NoChannel = 2,
    BeyondCounts = 3,
    EndsCrossed = 4,
    CentreOutside = 5,
    FewRecords = 6,
    Full = 7,
    NoEarlierLine = 8,
    DivisorHoldsZero = 9,
    NoSpan = 10,
    NoLine = 11,
    NotEmpty = 12,
    EndsEarly = 13,
    BadNumber = 14,
    BadOperation = 15,
    BadLength = 16,
    LittleRoom = 17,
}

#[derive(Clone, Copy, Debug, PartialEq, Eq)]
pub struct Refusal {
    pub cause: Cause,
    pub place: usize,
}

impl Cause {
    /// The refusal for this cause at a place.
    pub fn at(self, place: usize) -> Refusal {
        Refusal { cause: self, place }
    }
}
