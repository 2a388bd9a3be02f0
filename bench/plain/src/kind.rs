//! What a kind of numbers supplies.

use std::ops::Neg;

use crate::memory;

/// A kind of numbers. *Below* is the greatest mark that is not above the exact result, *above* the least one that is not below it; both are
/// absent where the exact result lies beyond the greatest mark.
pub trait Kind: Copy + 'static {
    type Mark: Copy + Ord + Neg<Output = Self::Mark>;

    /// The product of two marks, exactly.
    type Product: Copy + PartialOrd + Neg<Output = Self::Product>;

    const ZERO: Self::Mark;
    const ONE: Self::Mark;

    fn sum_below(a: Self::Mark, b: Self::Mark) -> Option<Self::Mark>;

    fn product(a: Self::Mark, b: Self::Mark) -> Self::Product;

    fn product_below(product: Self::Product) -> Option<Self::Mark>;

    /// The quotient by a divisor above 0.
    fn quotient_below(dividend: Self::Mark, divisor: Self::Mark) -> Option<Self::Mark>;

    /// A count as a mark. No count is beyond the greatest mark.
    fn count_below(count: i64) -> Self::Mark;

    /// A mark in whole 1/65,536, rounded down.
    fn whole_below(mark: Self::Mark) -> i64;

    /// What a stored mark means: 0 if this kind has no such mark.
    fn from_memory(stored: memory::Mark) -> Self::Mark;

    fn to_memory(mark: Self::Mark) -> memory::Mark;

    // The upward forms are the downward ones of the negatives.

    #[inline(always)]
    fn sum_above(a: Self::Mark, b: Self::Mark) -> Option<Self::Mark> {
        Self::sum_below(-a, -b).map(Neg::neg)
    }

    #[inline(always)]
    fn product_above(product: Self::Product) -> Option<Self::Mark> {
        Self::product_below(-product).map(Neg::neg)
    }

    #[inline(always)]
    fn quotient_above(dividend: Self::Mark, divisor: Self::Mark) -> Option<Self::Mark> {
        Self::quotient_below(-dividend, divisor).map(Neg::neg)
    }

    #[inline(always)]
    fn count_above(count: i64) -> Self::Mark {
        -Self::count_below(-count)
    }

    #[inline(always)]
    fn whole_above(mark: Self::Mark) -> i64 {
        -Self::whole_below(-mark)
    }
}
