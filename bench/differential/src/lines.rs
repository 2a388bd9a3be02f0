//! Random lines, drawn with an eye on the records of the lines before them.

use plain::memory::{LINES, Line, Record};

use crate::call::Memory;
use crate::library::Kind;
use crate::meaning::order;
use crate::numbers::{GREATEST, Sizes, any_size, beyond, wild};
use crate::random::Random;

/// Where the lines of a case stand: what is held, and which records it has.
pub struct Place<'a> {
    pub kind: Kind,
    pub sizes: Sizes,
    pub held: usize,
    pub channels: usize,
    pub swept: usize,
    pub records: &'a [Record],
}

impl<'a> Place<'a> {
    pub fn of(kind: Kind, sizes: Sizes, memory: &'a Memory) -> Self {
        let over = &memory.sheet.over;
        let held = memory.sheet.held.min(LINES);
        Place { kind, sizes, held, channels: over.channels, swept: over.swept, records: &memory.working }
    }

    /// A line, or a few that belong together, the last one first.
    pub fn draw(&self, random: &mut Random) -> Vec<Line> {
        let drawn = match random.below(100) {
            0..=7 if self.held > 0 => self.edge(random),
            8 if self.kind == Kind::Sliding => Some(self.greatest()),
            _ => None,
        };
        drawn.unwrap_or_else(|| vec![self.line(random)])
    }

    /// A constant with which a line's end comes to the greatest mark, or close by, in a sum, product or quotient; and that operation.
    fn edge(&self, random: &mut Random) -> Option<Vec<Line>> {
        let (step, greatest) = match self.kind {
            Kind::Fixed => (16, i128::from(GREATEST)),
            Kind::Sliding => (24, 16_777_215 << 32),
        };
        let line = random.below(self.held);
        let u = self.records[line].u;
        let end = i128::from(order(self.kind, if random.once_in(2) { u.lower } else { u.upper }));
        let operation = random.one_of(&[2, 3, 4, 4, 5, 5]);
        let partner = match operation {
            2 => greatest - end,
            3 => end - greatest,
            4 => (greatest << step).checked_div(end)?,
            _ => (end << step) / greatest,
        };
        let partner = if random.once_in(2) { -partner } else { partner };
        let constant = i64::try_from(partner >> (step - 16)).ok()? + random.between(-1, 1);
        if constant.abs() > GREATEST {
            return None;
        }
        let constant = Line { operation: 1, constant, ..Line::default() };
        Some(vec![Line { operation, a: line, b: self.held, ..Line::default() }, constant])
    }

    /// Lines whose last one is the greatest mark of the sliding kind, which no count comes near to.
    fn greatest(&self) -> Vec<Line> {
        let constant = |constant| Line { operation: 1, constant, ..Line::default() };
        let product = |a, b| Line { operation: 4, a: self.held + a, b: self.held + b, ..Line::default() };
        vec![product(2, 3), constant(32 << 16), product(0, 1), constant(8_192 << 16), constant(16_777_215 << 6)]
    }

    /// A line that is mostly sound, with anything in the fields that it does not need.
    pub fn line(&self, random: &mut Random) -> Line {
        let mut line = Line::default();
        if random.once_in(4) {
            (line.a, line.b, line.c) = (any_size(random), any_size(random), any_size(random));
            line.constant = random.next() as i64;
        }
        line.operation = match self.held {
            0 => random.weighted(&[60, 20, 1, 1, 1, 1, 1, 1, 1, 1, 1]),
            1..=3 => random.weighted(&[30, 15, 8, 8, 8, 8, 6, 6, 4, 4, 4]),
            _ => random.weighted(&[12, 9, 10, 10, 14, 13, 8, 10, 8, 8, 9]),
        } as u32;
        match line.operation {
            0 => line.a = self.channel(random),
            1 => line.constant = if random.once_in(40) { beyond(random) } else { self.sizes.count(random) },
            5 => (line.a, line.b) = (self.operand(random), self.divisor(random)),
            7 => line.a = self.straddling(random),
            10 => (line.a, line.b, line.c) = (self.straddling(random), self.operand(random), self.operand(random)),
            _ => (line.a, line.b) = (self.operand(random), self.operand(random)),
        }
        if random.once_in(250) {
            line.operation = random.one_of(&[11, 12, 255, u32::MAX]);
        }
        line
    }

    fn channel(&self, random: &mut Random) -> usize {
        match random.below(40) {
            0 => wild(random, &[self.channels, 8, 9]),
            1..=18 => self.swept,
            _ => random.below(self.channels.max(1)),
        }
    }

    /// An earlier line: often one of the last, and sometimes none at all.
    fn operand(&self, random: &mut Random) -> usize {
        match random.below(100) {
            0 => wild(random, &[self.held, self.held + 1, 63, 64]),
            _ if self.held == 0 => 0,
            1..=45 => self.held - 1 - random.below(self.held.min(4)),
            _ => random.below(self.held),
        }
    }

    fn operand_where(&self, random: &mut Random, tries: usize, wanted: impl Fn(&Record) -> bool) -> usize {
        let mut operand = self.operand(random);
        for _ in 0..tries {
            if self.records.get(operand).is_some_and(&wanted) {
                break;
            }
            operand = self.operand(random);
        }
        operand
    }

    /// The span of the record lies on both sides of 0.
    fn straddles(&self, record: &Record) -> bool {
        order(self.kind, record.u.lower) < 0 && order(self.kind, record.u.upper) > 0
    }

    fn straddling(&self, random: &mut Random) -> usize {
        let tries = random.below(5);
        self.operand_where(random, tries, |record| self.straddles(record))
    }

    /// A line whose span mostly does not hold 0.
    fn divisor(&self, random: &mut Random) -> usize {
        let tries = random.below(8);
        self.operand_where(random, tries, |record| order(self.kind, record.u.lower) > 0 || order(self.kind, record.u.upper) < 0)
    }
}
