//! Random formulas as bytes, and damage to them. The bytes are written here, and by neither library.

use plain::memory::{ChannelBox, Line};

use crate::call::{Call, Lent, Memory};
use crate::library::Kind;
use crate::lines::Place;
use crate::numbers::Sizes;
use crate::random::Random;

/// A number in groups of seven bits, the low group first.
fn put(bytes: &mut Vec<u8>, mut number: u128) {
    while number > 127 {
        bytes.push(number as u8 & 127 | 128);
        number >>= 7;
    }
    bytes.push(number as u8);
}

pub fn bytes_of(lines: &[Line]) -> Vec<u8> {
    let mut bytes = Vec::new();
    put(&mut bytes, lines.len() as u128);
    for line in lines {
        let Line { operation, constant, a, b, c } = *line;
        put(&mut bytes, u128::from(operation));
        let [a, b, c] = [a, b, c].map(|operand| operand as u128);
        let folded = if constant < 0 { (-2 * i128::from(constant) - 1) as u128 } else { 2 * constant as u128 };
        match operation {
            1 => put(&mut bytes, folded),
            0 | 6 | 7 => put(&mut bytes, a),
            10 => [a, b, c].into_iter().for_each(|operand| put(&mut bytes, operand)),
            _ => [a, b].into_iter().for_each(|operand| put(&mut bytes, operand)),
        }
    }
    bytes
}

/// A formula that is taken over a box, but for the last line now and then.
pub fn lines_on(random: &mut Random, kind: Kind, sizes: Sizes, over: &ChannelBox, count: usize) -> Vec<Line> {
    let mut memory = Memory::blank();
    memory.sheet.over = *over;
    let calls = kind.plain();
    let (mut lines, mut drawn, mut tries) = (Vec::new(), Vec::new(), 0);
    while lines.len() < count {
        if drawn.is_empty() {
            drawn = Place::of(kind, sizes, &memory).draw(random);
        }
        let Some(line) = drawn.pop() else { continue };
        let taken = Call::Add(line).make(&calls, &mut memory, Lent::USUAL).refusal == 0;
        tries += 1;
        if taken {
            lines.push(line);
        } else if tries > 4 * count {
            lines.push(line);
            break;
        }
    }
    lines
}

pub fn formula_on(random: &mut Random, kind: Kind, sizes: Sizes, over: &ChannelBox, count: usize) -> Vec<u8> {
    bytes_of(&lines_on(random, kind, sizes, over, count))
}

/// Damages bytes once.
pub fn damage(random: &mut Random, bytes: &mut Vec<u8>) {
    let length = bytes.len();
    let place = random.below(length.max(1)).min(length);
    match random.below(15) {
        0 if length > 0 => bytes[place] ^= 1 << random.below(8),
        1 if length > 0 => bytes[place] = random.next() as u8,
        2 if length > 0 => _ = bytes.remove(place),
        3 => bytes.insert(place, random.next() as u8),
        4 => bytes.truncate(place),
        5 => (0..=random.below(3)).for_each(|_| bytes.push(random.below(12) as u8)),
        6 if length > 0 => {
            // A group too many: the last one of a number is 0.
            bytes[place] |= 128;
            bytes.insert(place + 1, 0);
        }
        7 => {
            // A number that never ends in time, or is far too large.
            let groups = random.below(14);
            let last = random.one_of(&[0, 1, 7, 8, 127]);
            bytes.splice(place..place, std::iter::repeat_n(random.one_of(&[128, 255]), groups).chain([last]));
        }
        8 | 9 => {
            const EDGES: [u128; 12] = [10, 11, 63, 64, 65, 127, 128, (1 << 31) - 1, 1 << 31, 1 << 32, (1 << 35) - 1, 1 << 64];
            let mut number = Vec::new();
            put(&mut number, random.one_of(&EDGES));
            let end = (place + random.below(2)).min(length);
            bytes.splice(place..end, number);
        }
        10 if length > 0 => bytes[0] = random.one_of(&[0, 1, 2, 63, 64, 65, 66, 127, 128]),
        11 if length > 0 => bytes.swap(place, 0),
        12 if length > 0 => {
            let piece = bytes[place..(place + 1 + random.below(6)).min(length)].to_vec();
            bytes.splice(place..place, piece);
        }
        13 if length > 0 => bytes[place] = random.below(13) as u8,
        _ => *bytes = (0..random.below(20)).map(|_| random.next() as u8 & random.one_of(&[3, 7, 15, 127, 255])).collect(),
    }
}
