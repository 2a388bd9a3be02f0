//! A sheet with its memory, on which calls are made through the C interface.

use plain::exports::{FIXED, SLIDING};
use plain::memory::{Answer, Record, Sheet};
use plain::table::Calls;

use crate::script::Call;
use crate::words::{bytes, record, refused};

/// How many records the station has of each memory.
const RECORDS: usize = 128;

/// More bytes than any formula takes.
const ROOM: usize = 4096;

pub struct Station {
    calls: Calls,
    /// Marks of scale 0 are whole 2^-step.
    step: u32,
    sheet: Sheet,
    working: [Record; RECORDS],
    spare: [Record; RECORDS],
    workings: usize,
    spares: usize,
}

impl Station {
    pub fn new() -> Self {
        Station {
            calls: FIXED,
            step: 16,
            sheet: Sheet::BLANK,
            working: [Record::default(); RECORDS],
            spare: [Record::default(); RECORDS],
            workings: 64,
            spares: 64,
        }
    }

    pub fn answer(&mut self, call: Call) -> String {
        match call {
            Call::Kind { sliding } => {
                let (calls, step) = if sliding { (SLIDING, 24) } else { (FIXED, 16) };
                *self = Station { calls, step, ..Station::new() };
                format!("kind: {}", if sliding { "sliding" } else { "fixed" })
            }
            Call::Lend { workings, spares } => {
                (self.workings, self.spares) = (workings, spares);
                format!("lend: {workings} {spares}")
            }
            Call::Write(room) => self.write(room.unwrap_or(ROOM)),
            Call::Report(line) => {
                let answer = unsafe { (self.calls.report)(&self.sheet, self.working.as_ptr(), self.workings, line) };
                said(&format!("report {line}"), answer, |answer| format!("middle {} margin {}", answer.middle, answer.margin))
            }
            Call::Record(line) if line >= self.sheet.held => format!("record {line}: not held"),
            Call::Record(line) => format!("record {line}: {}", record(&self.working[line], self.step)),
            Call::Working(line) => format!("working {line}: {}", record(&self.working[line], self.step)),
            Call::Spare(line) => format!("spare {line}: {}", record(&self.spare[line], self.step)),
            call => self.change(call),
        }
    }

    /// The calls that change the sheet.
    fn change(&mut self, call: Call) -> String {
        let accepted = |_: Answer| "accepted".to_string();
        let (working, workings) = (self.working.as_mut_ptr(), self.workings);
        match call {
            Call::Open { lower, upper, swept, centre } => {
                let (lowers, uppers) = (lower.len(), upper.len());
                let (lower, upper) = (lower.as_ptr(), upper.as_ptr());
                let answer = unsafe { (self.calls.open)(&mut self.sheet, lower, lowers, upper, uppers, swept, centre) };
                said("open", answer, accepted)
            }
            Call::Add(line) => {
                let answer = unsafe { (self.calls.add)(&mut self.sheet, working, workings, &line) };
                said("add", answer, |answer| format!("line {}", answer.number))
            }
            Call::Strike => said("strike", unsafe { (self.calls.strike)(&mut self.sheet) }, accepted),
            Call::Move { channel, lower, upper, centre } => {
                let (spare, spares) = (self.spare.as_mut_ptr(), self.spares);
                let sheet = &mut self.sheet;
                let move_channel = self.calls.move_channel;
                let answer = unsafe { move_channel(sheet, working, workings, spare, spares, channel, lower, upper, centre) };
                said("move", answer, accepted)
            }
            Call::Read(bytes) => {
                let (bytes, length) = (bytes.as_ptr(), bytes.len());
                said("read", unsafe { (self.calls.read)(&mut self.sheet, working, workings, bytes, length) }, accepted)
            }
            _ => unreachable!("the other calls change nothing"),
        }
    }

    fn write(&self, room: usize) -> String {
        let mut out = vec![0; room];
        let answer = unsafe { (self.calls.write)(&self.sheet, out.as_mut_ptr(), room) };
        said("write", answer, |answer| bytes(&out[..answer.number]))
    }
}

fn said(call: &str, answer: Answer, accepted: impl Fn(Answer) -> String) -> String {
    format!("{call}: {}", if answer.refusal == 0 { accepted(answer) } else { refused(answer) })
}
