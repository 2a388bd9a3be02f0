//! Calls as values: made on either library, and told in the words of a script (docs/PROGRAM.md).

use std::fmt;

use plain::memory::{Answer, Line, Record, Sheet};
use plain::table::Calls;

use crate::boxes::Draft;

/// More records than a call may touch.
pub const RECORDS: usize = 67;

/// More bytes than any formula takes, with the longest numbers that a damaged line may hold.
pub const ROOM: usize = 2048;

/// The memory that one library works in.
#[derive(Clone)]
pub struct Memory {
    pub sheet: Sheet,
    pub working: [Record; RECORDS],
    pub spare: [Record; RECORDS],
    pub out: [u8; ROOM],
}

impl Memory {
    pub fn blank() -> Self {
        Memory {
            sheet: Sheet::BLANK,
            working: [Record::default(); RECORDS],
            spare: [Record::default(); RECORDS],
            out: [0xa5; ROOM],
        }
    }
}

/// How many records a call is lent.
#[derive(Clone, Copy, PartialEq, Eq)]
pub struct Lent {
    pub working: usize,
    pub spare: usize,
}

impl Lent {
    pub const USUAL: Self = Lent { working: 64, spare: 64 };
}

pub enum Call {
    Open(Draft),
    Add(Line),
    Strike,
    Move { channel: usize, lower: i64, upper: i64, centre: i64 },
    Read(Vec<u8>),
    Write { room: usize },
    Report { line: usize },
}

/// The names of the calls, in the order of `Call::index`, and of the job that makes several.
pub const NAMES: [&str; 8] = ["open", "add", "strike", "move", "read", "write", "report", "windows"];

impl Call {
    pub fn index(&self) -> usize {
        match self {
            Call::Open(_) => 0,
            Call::Add(_) => 1,
            Call::Strike => 2,
            Call::Move { .. } => 3,
            Call::Read(_) => 4,
            Call::Write { .. } => 5,
            Call::Report { .. } => 6,
        }
    }

    pub fn make(&self, calls: &Calls, memory: &mut Memory, lent: Lent) -> Answer {
        let Memory { sheet, working, spare, out } = memory;
        let (working, spare) = (working.as_mut_ptr(), spare.as_mut_ptr());
        // Pointers are to live memory of the lengths that are told: at most RECORDS are lent, and at most ROOM bytes.
        unsafe {
            match self {
                Call::Open(Draft { lower, upper, swept, centre }) => {
                    (calls.open)(sheet, lower.as_ptr(), lower.len(), upper.as_ptr(), upper.len(), *swept, *centre)
                }
                Call::Add(line) => (calls.add)(sheet, working, lent.working, line),
                Call::Strike => (calls.strike)(sheet),
                &Call::Move { channel, lower, upper, centre } => {
                    (calls.move_channel)(sheet, working, lent.working, spare, lent.spare, channel, lower, upper, centre)
                }
                Call::Read(bytes) => (calls.read)(sheet, working, lent.working, bytes.as_ptr(), bytes.len()),
                &Call::Write { room } => (calls.write)(sheet, out.as_mut_ptr(), room),
                &Call::Report { line } => (calls.report)(sheet, working, lent.working, line),
            }
        }
    }
}

impl fmt::Display for Call {
    fn fmt(&self, f: &mut fmt::Formatter) -> fmt::Result {
        let list = |numbers: &[i64]| numbers.iter().map(|number| format!(" {number}")).collect::<String>();
        match self {
            Call::Open(Draft { lower, upper, swept, centre }) => {
                write!(f, "open lower{} upper{} swept {swept} centre {centre}", list(lower), list(upper))
            }
            Call::Add(line) => write!(f, "add {}", words(line)),
            Call::Strike => write!(f, "strike"),
            Call::Move { channel, lower, upper, centre } => {
                write!(f, "move {channel} lower {lower} upper {upper} centre {centre}")
            }
            Call::Read(bytes) => write!(f, "read{}", bytes.iter().map(|byte| format!(" {byte:02x}")).collect::<String>()),
            Call::Write { room } => write!(f, "write {room}"),
            Call::Report { line } => write!(f, "report {line}"),
        }
    }
}

/// A line in the words of a script.
pub fn words(line: &Line) -> String {
    let Line { operation, constant, a, b, c } = line;
    match operation {
        0 => format!("channel {a}"),
        1 => format!("constant {constant}"),
        2 => format!("sum {a} {b}"),
        3 => format!("difference {a} {b}"),
        4 => format!("product {a} {b}"),
        5 => format!("quotient {a} {b}"),
        6 => format!("square {a}"),
        7 => format!("magnitude {a}"),
        8 => format!("greater {a} {b}"),
        9 => format!("lesser {a} {b}"),
        10 => format!("branch {a} {b} {c}"),
        _ => format!("(operation {operation}) {a} {b} {c}"),
    }
}
