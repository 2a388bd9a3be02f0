//! Random counts and ranges of counts, so drawn that edges are met often.

use crate::random::Random;

pub const GREATEST: i64 = 1_073_741_823;

/// What size the counts of a case have.
#[derive(Clone, Copy)]
pub struct Sizes {
    /// Counts mostly have at most so many bits.
    bits: usize,
}

impl Sizes {
    pub fn random(random: &mut Random) -> Self {
        Sizes { bits: random.one_of(&[3, 10, 16, 17, 18, 20, 24, 30]) }
    }

    /// A size of either sign, by bits rather than evenly.
    fn plain(self, random: &mut Random) -> i64 {
        let bits = random.below(self.bits + 1);
        let size = random.between(0, (1 << bits) - 1);
        if random.once_in(2) { -size } else { size }
    }

    pub fn count(self, random: &mut Random) -> i64 {
        const EDGES: [i64; 12] =
            [0, 1, 2, 32_768, 65_535, 65_536, 65_537, 131_072, 16_777_216, 16_777_217, GREATEST - 1, GREATEST];
        match random.below(8) {
            0 => random.one_of(&EDGES[..8]) * random.one_of(&[-1, 1]),
            1 if self.bits > 20 => random.one_of(&EDGES) * random.one_of(&[-1, 1]),
            _ => self.plain(random),
        }
    }

    /// A range of counts, its lower end not above its upper one.
    pub fn range(self, random: &mut Random) -> (i64, i64) {
        let (n, m) = (self.count(random), self.count(random));
        let (lower, upper) = match random.below(12) {
            0 => (n, n),
            1 => (0, n.abs()),
            2 => (-n.abs(), 0),
            3 => (-n.abs(), n.abs()),
            4 => (-n.abs(), m.abs()),
            5 | 6 => (n, n + random.between(0, 9)),
            7 | 8 => (n, n + n.abs() / 16),
            9 if self.bits == 30 => random.one_of(&[(-GREATEST, GREATEST), (GREATEST - 5, GREATEST), (-GREATEST, n)]),
            10 => (n.abs() + 1, n.abs() + 1 + m.abs()),
            _ => (n.min(m), n.max(m)),
        };
        (lower.min(GREATEST), upper.min(GREATEST))
    }
}

/// A centre in a range: often an end, the middle, or 0.
pub fn centre(random: &mut Random, (lower, upper): (i64, i64)) -> i64 {
    match random.below(6) {
        0 => lower,
        1 => upper,
        2 | 3 => (lower + upper) >> 1,
        4 if lower <= 0 && 0 <= upper => 0,
        _ => random.between(lower, upper),
    }
}

/// A number that is no count.
pub fn beyond(random: &mut Random) -> i64 {
    match random.below(4) {
        0 => random.one_of(&[GREATEST + 1, -GREATEST - 1]),
        1 => random.one_of(&[i64::MIN, i64::MAX, i64::MIN + 1]),
        2 => random.between(GREATEST + 1, 4 * GREATEST) * random.one_of(&[-1, 1]),
        _ => random.between(GREATEST + 1, i64::MAX) * random.one_of(&[-1, 1]),
    }
}

/// A number that is as likely to be large as small.
pub fn any_size(random: &mut Random) -> usize {
    let bits = random.below(65);
    if bits == 0 { 0 } else { (random.next() >> (64 - bits)) as usize }
}

/// One of these numbers, or any other.
pub fn wild(random: &mut Random, numbers: &[usize]) -> usize {
    if random.once_in(numbers.len() + 1) { any_size(random) } else { random.one_of(numbers) }
}
