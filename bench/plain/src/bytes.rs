//! Formulas as bytes: numbers in groups of seven bits, the low group first.

use crate::line::{LAST_OPERATION, Line, operands};
use crate::memory::LINES;
use crate::refusal::{Cause, Refusal};

const GREATEST: u64 = 2_147_483_647;

/// The groups that the greatest number needs.
const GROUPS: usize = 5;

/// The lines that bytes hold, as far as they can be read, and what stops the reading, if anything.
pub struct Formula {
    lines: [Line; LINES],
    read: usize,
    pub fault: Option<Refusal>,
}

impl Formula {
    pub fn read(bytes: &[u8]) -> Self {
        let mut formula = Formula { lines: [Line::Constant(0); LINES], read: 0, fault: None };
        formula.fault = formula.fill(bytes).err();
        formula
    }

    pub fn lines(&self) -> &[Line] {
        &self.lines[..self.read]
    }

    fn fill(&mut self, bytes: &[u8]) -> Result<(), Refusal> {
        let mut reader = Reader { bytes, place: 0 };
        let count = reader.number(0)? as usize;
        if !(1..=LINES).contains(&count) {
            return Err(Cause::BadLength.at(0));
        }
        for line in &mut self.lines[..count] {
            *line = reader.line()?;
            self.read += 1;
        }
        if reader.place < bytes.len() { Err(Cause::BadLength.at(reader.place)) } else { Ok(()) }
    }
}

struct Reader<'a> {
    bytes: &'a [u8],
    place: usize,
}

impl Reader<'_> {
    /// The next number, refused at the place where its line begins.
    fn number(&mut self, begin: usize) -> Result<u64, Refusal> {
        let rest = &self.bytes[self.place..];
        let last = rest.iter().position(|byte| byte & 0x80 == 0).ok_or(Cause::EndsEarly.at(begin))?;
        self.place += last + 1;
        let shortest = last == 0 || rest[last] != 0;
        if !shortest || last >= GROUPS {
            return Err(Cause::BadNumber.at(begin));
        }
        let number = rest[..=last].iter().rev().fold(0, |number, &byte| number << 7 | u64::from(byte & 0x7f));
        if number > GREATEST { Err(Cause::BadNumber.at(begin)) } else { Ok(number) }
    }

    fn line(&mut self) -> Result<Line, Refusal> {
        let begin = self.place;
        let operation = self.number(begin)? as u32;
        if operation > LAST_OPERATION {
            return Err(Cause::BadOperation.at(begin));
        }
        let mut numbers = [0; 3];
        for number in &mut numbers[..operands(operation)] {
            *number = self.number(begin)?;
        }
        Ok(Line::of_numbers(operation, numbers))
    }
}

impl Line {
    fn of_numbers(operation: u32, numbers: [u64; 3]) -> Self {
        let [a, b, c] = numbers.map(|number| number as usize);
        match operation {
            0 => Line::Channel(a),
            1 => Line::Constant(unfolded(numbers[0])),
            2 => Line::Sum(a, b),
            3 => Line::Difference(a, b),
            4 => Line::Product(a, b),
            5 => Line::Quotient(a, b),
            6 => Line::Square(a),
            7 => Line::Magnitude(a),
            8 => Line::Greater(a, b),
            9 => Line::Lesser(a, b),
            _ => Line::Branch(a, b, c),
        }
    }

    /// The operation and the operands as numbers, and how many they are.
    fn numbers(self) -> ([u64; 4], usize) {
        let operation = u64::from(self.operation());
        let numbers = match self {
            Line::Constant(count) => [operation, folded(count), 0, 0],
            Line::Channel(a) | Line::Square(a) | Line::Magnitude(a) => [operation, a as u64, 0, 0],
            Line::Sum(a, b)
            | Line::Difference(a, b)
            | Line::Product(a, b)
            | Line::Quotient(a, b)
            | Line::Greater(a, b)
            | Line::Lesser(a, b) => [operation, a as u64, b as u64, 0],
            Line::Branch(a, b, c) => [operation, a as u64, b as u64, c as u64],
        };
        (numbers, 1 + operands(self.operation()))
    }
}

/// 0, -1, 1, -2, 2 .. as 0, 1, 2, 3, 4 ..
fn folded(count: i64) -> u64 {
    (count << 1 ^ count >> 63) as u64
}

fn unfolded(number: u64) -> i64 {
    (number >> 1) as i64 ^ -((number & 1) as i64)
}

/// How many bytes a number takes.
fn size(number: u64) -> usize {
    let bits = u64::BITS - (number | 1).leading_zeros();
    bits.div_ceil(7) as usize
}

/// Writes lines from the first byte on, and answers how many bytes they take; refused with that number if there are too few.
pub fn write(lines: impl ExactSizeIterator<Item = Line> + Clone, out: &mut [u8]) -> Result<usize, Refusal> {
    let count = lines.len() as u64;
    let numbers = |line: Line| {
        let (numbers, count) = line.numbers();
        numbers.into_iter().take(count)
    };
    let all = || std::iter::once(count).chain(lines.clone().flat_map(numbers));
    let needed = all().map(size).sum();
    if out.len() < needed {
        return Err(Cause::LittleRoom.at(needed));
    }
    let mut room = out.iter_mut();
    for mut number in all() {
        while number > 0x7f {
            put(&mut room, number as u8 | 0x80);
            number >>= 7;
        }
        put(&mut room, number as u8);
    }
    Ok(needed)
}

fn put(room: &mut std::slice::IterMut<u8>, byte: u8) {
    // There are enough: they were counted.
    if let Some(place) = room.next() {
        *place = byte;
    }
}
