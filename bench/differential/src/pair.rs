//! Both libraries, each with its own memory of the same content: every call is made on both, and what it answers and leaves is compared.

use plain::memory::{Answer, LINES, Record};

use crate::call::{Call, Lent, Memory, RECORDS};
use crate::library::Kind;
use crate::meaning;
use crate::show;
use crate::tally::Tally;

/// What happened, and whether it is told as it goes.
#[derive(Default)]
pub struct Log {
    pub tally: Tally,
    pub trace: bool,
}

/// A difference between the libraries, in words.
pub type Difference = String;

pub struct Pair {
    pub kind: Kind,
    pub plain: Memory,
    pub tested: Memory,
    told: Lent,
}

impl Pair {
    pub fn new(kind: Kind, memory: Memory) -> Self {
        Pair { kind, plain: memory.clone(), tested: memory, told: Lent::USUAL }
    }

    /// Makes a call on both, and compares.
    pub fn step(&mut self, call: &Call, lent: Lent, log: &mut Log) -> Result<Answer, Difference> {
        let (plain, tested) = self.make(call, lent, log);
        if plain != tested {
            return Err(format!("{call}\n  plain:  {}\n  tested: {}", show::answer(&plain), show::answer(&tested)));
        }
        self.compare(call).map_err(|difference| format!("{call}\n  {difference}"))?;
        Ok(plain)
    }

    /// Makes a call on both, and answers both answers.
    pub fn make(&mut self, call: &Call, lent: Lent, log: &mut Log) -> (Answer, Answer) {
        if log.trace {
            if lent != self.told {
                println!("lend {} {}", lent.working, lent.spare);
                self.told = lent;
            }
            println!("{call}");
        }
        let plain = call.make(&self.kind.plain(), &mut self.plain, lent);
        let tested = call.make(&self.kind.tested(), &mut self.tested, lent);
        log.tally.answered(self.kind, call.index(), plain.refusal);
        (plain, tested)
    }

    /// Compares the memory that a call may have touched.
    pub fn compare(&self, call: &Call) -> Result<(), Difference> {
        self.sheets()?;
        match call {
            Call::Open(_) | Call::Strike => Ok(()),
            Call::Add(_) | Call::Read(_) | Call::Report { .. } => self.records("working", |memory| &memory.working),
            Call::Move { .. } => {
                self.records("working", |memory| &memory.working)?;
                self.records("spare", |memory| &memory.spare)
            }
            Call::Write { .. } if self.plain.out == self.tested.out => Ok(()),
            Call::Write { .. } => Err(format!("bytes\n  plain:  {:02x?}\n  tested: {:02x?}", self.plain.out, self.tested.out)),
        }
    }

    fn sheets(&self) -> Result<(), Difference> {
        let (plain, tested) = (&self.plain.sheet, &self.tested.sheet);
        let held = plain.held.min(LINES);
        if plain.over == tested.over && plain.held == tested.held && plain.lines[..held] == tested.lines[..held] {
            return Ok(());
        }
        let (meant, tested_meant) = (meaning::sheet(plain), meaning::sheet(tested));
        // A line that is written anew stands in its one written form.
        let written = |line: usize| plain.lines[line] == tested.lines[line] || meant.lines[line] == tested.lines[line];
        if meant == tested_meant && (0..meant.held).all(written) {
            return Ok(());
        }
        Err(format!("the sheet\n  plain:  {}\n  tested: {}", show::sheet(&plain), show::sheet(&tested)))
    }

    fn records(&self, name: &str, of: impl Fn(&Memory) -> &[Record; RECORDS]) -> Result<(), Difference> {
        let (plain, tested) = (of(&self.plain), of(&self.tested));
        if bytes(plain) == bytes(tested) {
            return Ok(());
        }
        for (line, (plain, tested)) in plain.iter().zip(tested).enumerate() {
            // A record that is written anew stands in its one written form. What is not lent is not even written anew.
            let alike = plain == tested || (line < LINES && meaning::record(self.kind, plain) == *tested);
            if !alike {
                let (plain, tested) = (show::record(plain), show::record(tested));
                return Err(format!("{name} line {line}\n  plain:  {plain}\n  tested: {tested}"));
            }
        }
        Ok(())
    }
}

/// Records have no padding.
fn bytes(records: &[Record; RECORDS]) -> &[u8; size_of::<[Record; RECORDS]>()] {
    unsafe { &*std::ptr::from_ref(records).cast() }
}
