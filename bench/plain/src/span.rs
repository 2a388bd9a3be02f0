//! Spans of marks, and the narrowest spans over the results of operations on them. Where a result lies beyond the greatest mark, the
//! operation is absent.

use crate::kind::Kind;
use crate::memory;

/// All numbers from `lower` to `upper`. Damaged memory may hold spans whose ends are crossed: no operation fails on them.
#[derive(Clone, Copy)]
pub struct Span<K: Kind> {
    pub lower: K::Mark,
    pub upper: K::Mark,
}

impl<K: Kind> Span<K> {
    pub const ZERO: Self = Span { lower: K::ZERO, upper: K::ZERO };
    pub const ONE: Self = Span { lower: K::ONE, upper: K::ONE };

    #[inline(always)]
    pub fn point(mark: K::Mark) -> Self {
        Span { lower: mark, upper: mark }
    }

    /// The span of a range of counts.
    #[inline(always)]
    pub fn of_counts(lower: i64, upper: i64) -> Self {
        Span { lower: K::count_below(lower), upper: K::count_above(upper) }
    }

    #[inline(always)]
    pub fn from_memory(stored: &memory::Span) -> Self {
        Span { lower: K::from_memory(stored.lower), upper: K::from_memory(stored.upper) }
    }

    #[inline(always)]
    pub fn to_memory(self) -> memory::Span {
        memory::Span { lower: K::to_memory(self.lower), upper: K::to_memory(self.upper) }
    }

    #[inline(always)]
    pub fn holds_zero(self) -> bool {
        self.lower <= K::ZERO && K::ZERO <= self.upper
    }

    #[inline(always)]
    pub fn is_below_zero(self) -> bool {
        self.upper < K::ZERO
    }

    #[inline(always)]
    pub fn is_not_below_zero(self) -> bool {
        self.lower >= K::ZERO
    }

    #[inline(always)]
    pub fn negative(self) -> Self {
        Span { lower: -self.upper, upper: -self.lower }
    }

    /// The narrowest span over both.
    #[inline(always)]
    pub fn hull(self, other: Self) -> Self {
        Span { lower: self.lower.min(other.lower), upper: self.upper.max(other.upper) }
    }

    /// The greater of a number of this span and one of the other.
    #[inline(always)]
    pub fn greater(self, other: Self) -> Self {
        Span { lower: self.lower.max(other.lower), upper: self.upper.max(other.upper) }
    }

    /// The lesser of a number of this span and one of the other.
    #[inline(always)]
    pub fn lesser(self, other: Self) -> Self {
        Span { lower: self.lower.min(other.lower), upper: self.upper.min(other.upper) }
    }

    /// What lies in both.
    #[inline(always)]
    pub fn intersection(self, other: Self) -> Self {
        Span { lower: self.lower.max(other.lower), upper: self.upper.min(other.upper) }
    }

    #[inline(always)]
    pub fn plus(self, other: Self) -> Option<Self> {
        Some(Span { lower: K::sum_below(self.lower, other.lower)?, upper: K::sum_above(self.upper, other.upper)? })
    }

    #[inline(always)]
    pub fn minus(self, other: Self) -> Option<Self> {
        self.plus(other.negative())
    }

    #[inline(always)]
    pub fn times(self, other: Self) -> Option<Self> {
        let corners = [
            K::product(self.lower, other.lower),
            K::product(self.lower, other.upper),
            K::product(self.upper, other.lower),
            K::product(self.upper, other.upper),
        ];
        let least = |p, q| if q < p { q } else { p };
        let greatest = |p, q| if q > p { q } else { p };
        let [p, q, r, s] = corners;
        Self::of_products(least(least(p, q), least(r, s)), greatest(greatest(p, q), greatest(r, s)))
    }

    /// The quotient, absent if the divisor holds 0.
    #[inline(always)]
    pub fn over(self, divisor: Self) -> Option<Self> {
        if divisor.lower > K::ZERO && divisor.upper > K::ZERO {
            self.over_positive(divisor)
        } else if divisor.lower < K::ZERO && divisor.upper < K::ZERO {
            self.negative().over_positive(divisor.negative())
        } else {
            None
        }
    }

    /// The quotient by a divisor above 0: each end is divided by the end of the divisor that carries it further out.
    #[inline(always)]
    fn over_positive(self, divisor: Self) -> Option<Self> {
        let for_lower = if self.lower < K::ZERO { divisor.lower } else { divisor.upper };
        let for_upper = if self.upper < K::ZERO { divisor.upper } else { divisor.lower };
        Some(Span { lower: K::quotient_below(self.lower, for_lower)?, upper: K::quotient_above(self.upper, for_upper)? })
    }

    #[inline(always)]
    pub fn square(self) -> Option<Self> {
        let size = self.magnitude();
        Self::of_products(K::product(size.lower, size.lower), K::product(size.upper, size.upper))
    }

    #[inline(always)]
    pub fn magnitude(self) -> Self {
        if self.is_not_below_zero() {
            self
        } else if self.upper <= K::ZERO {
            self.negative()
        } else {
            Span { lower: K::ZERO, upper: self.upper.max(-self.lower) }
        }
    }

    #[inline(always)]
    fn of_products(least: K::Product, greatest: K::Product) -> Option<Self> {
        Some(Span { lower: K::product_below(least)?, upper: K::product_above(greatest)? })
    }
}
