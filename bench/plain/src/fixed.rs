//! The fixed kind: whole 1/65,536, from -1,073,741,823 to 1,073,741,823 of them.

use crate::kind::Kind;
use crate::memory;

const GREATEST: i32 = 1_073_741_823;
const SHIFT: u32 = 16;

#[derive(Clone, Copy, Debug)]
pub struct Fixed;

fn in_range(units: i32) -> Option<i32> {
    (-GREATEST..=GREATEST).contains(&units).then_some(units)
}

impl Kind for Fixed {
    type Mark = i32;
    type Product = i64;

    const ZERO: i32 = 0;
    const ONE: i32 = 1 << SHIFT;

    #[inline(always)]
    fn sum_below(a: i32, b: i32) -> Option<i32> {
        // Twice the greatest mark still fits.
        in_range(a + b)
    }

    #[inline(always)]
    fn product(a: i32, b: i32) -> i64 {
        i64::from(a) * i64::from(b)
    }

    #[inline(always)]
    fn product_below(product: i64) -> Option<i32> {
        const LIMIT: i64 = (GREATEST as i64) << SHIFT;
        (-LIMIT..=LIMIT).contains(&product).then_some((product >> SHIFT) as i32)
    }

    #[inline(always)]
    fn quotient_below(dividend: i32, divisor: i32) -> Option<i32> {
        let (dividend, divisor) = (i64::from(dividend) << SHIFT, i64::from(divisor));
        let limit = i64::from(GREATEST) * divisor;
        // Doubles divide faster than integers. A quotient of such numbers that is not whole is more than a part in 2^47 away from each whole
        // number, and the nearest double is closer to it than that. So both have the same floor.
        (-limit..=limit).contains(&dividend).then(|| (dividend as f64 / divisor as f64).floor() as i32)
    }

    #[inline(always)]
    fn count_below(count: i64) -> i32 {
        count as i32
    }

    #[inline(always)]
    fn whole_below(mark: i32) -> i64 {
        i64::from(mark)
    }

    #[inline(always)]
    fn from_memory(stored: memory::Mark) -> i32 {
        in_range(stored.number).unwrap_or(0)
    }

    #[inline(always)]
    fn to_memory(mark: i32) -> memory::Mark {
        memory::Mark { number: mark, scale: 0 }
    }
}
