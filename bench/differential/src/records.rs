//! Random records: what working and spare lines may hold when nobody keeps them.

use plain::memory::{Mark, Record, Span};

use crate::call::Memory;
use crate::library::Kind;
use crate::meaning::{is_crossed, order};
use crate::random::Random;

/// A mark of the kind, mostly; now and then one that the kind does not have.
fn mark(random: &mut Random, kind: Kind, bits: usize) -> Mark {
    let below = random.below(bits + 1);
    let size = random.between(0, (1 << below) - 1) as i32;
    let number = if random.once_in(2) { -size } else { size };
    match (kind, random.below(40)) {
        (_, 0) => Mark { number: random.next() as i32, scale: random.next() as u32 },
        (_, 1) => Mark { number: random.one_of(&[i32::MIN, i32::MAX, 1 << 30, -(1 << 30), (1 << 30) - 1, 0]), scale: 0 },
        (_, 2) => Mark { number, scale: random.below(40) as u32 },
        (_, 3) => Mark::default(),
        (Kind::Fixed, _) => Mark { number, scale: if random.once_in(4) { random.next() as u32 } else { 0 } },
        (Kind::Sliding, 4) => {
            Mark { number: random.one_of(&[8_388_607, 8_388_608, 16_777_215, 16_777_216]), scale: random.below(34) as u32 }
        }
        (Kind::Sliding, _) => {
            // A number of more than 24 bits, shortened to the one stored form.
            let units = i64::from(number) << random.one_of(&[0, 0, 4, 8, 16, 25]);
            let scale = (64 - units.unsigned_abs().leading_zeros()).saturating_sub(24);
            Mark { number: (units >> scale) as i32, scale }
        }
    }
}

/// A span, with its ends in order unless they may be crossed.
fn span(random: &mut Random, kind: Kind, bits: usize, crossed: bool) -> Span {
    let lower = mark(random, kind, bits);
    let upper = if random.once_in(4) { lower } else { mark(random, kind, bits) };
    let span = Span { lower, upper };
    if is_crossed(kind, span) && !(crossed && random.once_in(8)) { Span { lower: upper, upper: lower } } else { span }
}

pub fn record(random: &mut Random, kind: Kind, crossed: bool) -> Record {
    let bits = random.one_of(&[4, 14, 17, 20, 26, 30]);
    let (value, slope) = (bits, random.one_of(&[4, 14, 17, 20, 26]));
    let u = span(random, kind, value, crossed);
    let u0 = if random.once_in(2) { inside(random, kind, u) } else { span(random, kind, value, crossed) };
    let [a, b, c] = std::array::from_fn(|_| span(random, kind, slope, crossed));
    let slopes = random.one_of(&[0, 1, 1, 1, 1, 2, u32::MAX]);
    Record { u, u0, a, b, c, slopes }
}

/// A span within another, made of its ends and of 0.
fn inside(random: &mut Random, kind: Kind, u: Span) -> Span {
    let zero = Mark::default();
    match random.below(4) {
        0 => Span { lower: u.lower, upper: u.lower },
        1 => Span { lower: u.upper, upper: u.upper },
        2 if order(kind, u.lower) <= 0 && order(kind, u.upper) >= 0 => Span { lower: zero, upper: zero },
        _ => u,
    }
}

/// Fills all working and spare lines.
pub fn spoil_all(random: &mut Random, kind: Kind, memory: &mut Memory, crossed: bool) {
    for place in memory.working.iter_mut().chain(&mut memory.spare) {
        *place = record(random, kind, crossed);
    }
}
