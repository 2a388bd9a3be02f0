//! The sliding kind: numbers of 24 bits, in steps of 2^-24 or coarser.
//!
//! A mark is computed with as a whole number of 2^-24, which fits 64 bits for the greatest one too. So marks compare and add like integers,
//! and rounding clears the bits behind the first 24.

use crate::kind::Kind;
use crate::memory;

const BITS: u32 = 24;
const MANTISSA: i32 = (1 << BITS) - 1;
const SCALES: u32 = 32;

/// The greatest mark, in units of 2^-24.
const GREATEST: i64 = (MANTISSA as i64) << SCALES;

const LIMIT: f64 = GREATEST as f64;
const UNIT: f64 = 1.0 / (1 << BITS) as f64;

/// A unit is 2^-24, a count 2^-16.
const COUNT: u32 = 8;

#[derive(Clone, Copy, Debug)]
pub struct Sliding;

/// How many bits a number of units has beyond 24.
#[inline(always)]
fn excess(units: i64) -> u32 {
    let least = i64::BITS - BITS;
    least - (units.unsigned_abs() | MANTISSA as u64).leading_zeros()
}

/// The greatest mark that is not above so many units.
#[inline(always)]
fn below(units: i64) -> i64 {
    let excess = excess(units);
    units >> excess << excess
}

fn in_range(units: i64) -> bool {
    (-GREATEST..=GREATEST).contains(&units)
}

impl Kind for Sliding {
    type Mark = i64;
    type Product = f64;

    const ZERO: i64 = 0;
    const ONE: i64 = 1 << BITS;

    #[inline(always)]
    fn sum_below(a: i64, b: i64) -> Option<i64> {
        let sum = a + b;
        in_range(sum).then(|| below(sum))
    }

    /// In units of 2^-48. Two mantissas have 48 bits together, so that a double holds their product.
    #[inline(always)]
    fn product(a: i64, b: i64) -> f64 {
        a as f64 * b as f64
    }

    #[inline(always)]
    fn product_below(product: f64) -> Option<i64> {
        let units = product * UNIT;
        (-LIMIT..=LIMIT).contains(&units).then(|| below(units.floor() as i64))
    }

    #[inline(always)]
    fn quotient_below(dividend: i64, divisor: i64) -> Option<i64> {
        let (dividend, divisor) = (dividend as f64, divisor as f64);
        let limit = LIMIT * divisor * UNIT;
        // Of numbers of 24 bits a quotient that is no mark is more than a part in 2^49 away from each mark, and the nearest double is closer
        // to it than that. So both lie between the same two marks.
        (-limit..=limit).contains(&dividend).then(|| below((dividend / divisor / UNIT).floor() as i64))
    }

    #[inline(always)]
    fn count_below(count: i64) -> i64 {
        below(count << COUNT)
    }

    #[inline(always)]
    fn whole_below(mark: i64) -> i64 {
        mark >> COUNT
    }

    #[inline(always)]
    fn from_memory(stored: memory::Mark) -> i64 {
        let memory::Mark { number, scale } = stored;
        let size = number.unsigned_abs();
        let normal = scale == 0 || size > MANTISSA as u32 / 2;
        if scale <= SCALES && size <= MANTISSA as u32 && normal { i64::from(number) << scale } else { 0 }
    }

    #[inline(always)]
    fn to_memory(mark: i64) -> memory::Mark {
        let scale = excess(mark);
        memory::Mark { number: (mark >> scale) as i32, scale }
    }
}
