//! What is known of a line over a box, and the rules that take records part by part.

use crate::kind::Kind;
use crate::memory;
use crate::span::Span;

/// The span of a line over the box, its span at the centre, and the spans of its slopes, where there are any.
#[derive(Clone, Copy)]
pub struct Record<K: Kind> {
    pub u: Span<K>,
    pub u0: Span<K>,
    pub slopes: Option<Slopes<K>>,
}

/// At a distance h from the centre the value is that at the centre and a * h more, and also b * h + c * h * h more.
#[derive(Clone, Copy)]
pub struct Slopes<K: Kind> {
    pub a: Span<K>,
    pub b: Span<K>,
    pub c: Span<K>,
}

impl<K: Kind> Slopes<K> {
    pub const STILL: Self = Slopes { a: Span::ZERO, b: Span::ZERO, c: Span::ZERO };
    pub const SWEPT: Self = Slopes { a: Span::ONE, b: Span::ONE, c: Span::ZERO };

    /// Both, joined part by part; none where either has none.
    #[inline(always)]
    pub fn joined(first: Option<Self>, second: Option<Self>, join: impl Fn(Span<K>, Span<K>) -> Option<Span<K>>) -> Option<Self> {
        let (p, q) = (first?, second?);
        Some(Slopes { a: join(p.a, q.a)?, b: join(p.b, q.b)?, c: join(p.c, q.c)? })
    }
}

impl<K: Kind> Record<K> {
    pub const ZERO: Self = Record { u: Span::ZERO, u0: Span::ZERO, slopes: None };

    pub fn from_memory(stored: &memory::Record) -> Self {
        let slopes = (stored.slopes != 0).then(|| Slopes {
            a: Span::from_memory(&stored.a),
            b: Span::from_memory(&stored.b),
            c: Span::from_memory(&stored.c),
        });
        Record { u: Span::from_memory(&stored.u), u0: Span::from_memory(&stored.u0), slopes }
    }

    pub fn to_memory(&self) -> memory::Record {
        let mut stored = memory::Record { u: self.u.to_memory(), u0: self.u0.to_memory(), ..Default::default() };
        if let Some(slopes) = &self.slopes {
            stored.a = slopes.a.to_memory();
            stored.b = slopes.b.to_memory();
            stored.c = slopes.c.to_memory();
            stored.slopes = 1;
        }
        stored
    }

    /// What does not change with the swept channel.
    #[inline(always)]
    pub fn still(u: Span<K>) -> Self {
        Record { u, u0: u, slopes: Some(Slopes::STILL) }
    }

    /// The swept channel.
    #[inline(always)]
    pub fn swept(u: Span<K>, u0: Span<K>) -> Self {
        Record { u, u0, slopes: Some(Slopes::SWEPT) }
    }

    #[inline(always)]
    pub fn sum(u: &Self, v: &Self) -> Option<Self> {
        Self::part_by_part(u, v, Span::plus)
    }

    #[inline(always)]
    pub fn difference(u: &Self, v: &Self) -> Option<Self> {
        Self::part_by_part(u, v, Span::minus)
    }

    #[inline(always)]
    fn part_by_part(u: &Self, v: &Self, join: impl Fn(Span<K>, Span<K>) -> Option<Span<K>>) -> Option<Self> {
        Some(Record { u: join(u.u, v.u)?, u0: join(u.u0, v.u0)?, slopes: Slopes::joined(u.slopes, v.slopes, join) })
    }

    /// The first operand where it is never the lesser one, or else the second where it is never the lesser one.
    #[inline(always)]
    pub fn greater(u: &Self, v: &Self) -> Self {
        if u.u.lower >= v.u.upper {
            *u
        } else if v.u.lower >= u.u.upper {
            *v
        } else {
            Self::mixed(u, v, Span::greater)
        }
    }

    #[inline(always)]
    pub fn lesser(u: &Self, v: &Self) -> Self {
        if u.u.upper <= v.u.lower {
            *u
        } else if v.u.upper <= u.u.lower {
            *v
        } else {
            Self::mixed(u, v, Span::lesser)
        }
    }

    #[inline(always)]
    fn mixed(u: &Self, v: &Self, choose: impl Fn(Span<K>, Span<K>) -> Span<K>) -> Self {
        let slopes = Slopes::joined(u.slopes, v.slopes, |p, q| Some(p.hull(q)));
        Record { u: choose(u.u, v.u), u0: choose(u.u0, v.u0), slopes }
    }

    /// One operand or the other by the sign of the test. While the sign is open nothing bounds the slopes, for the value may jump.
    #[inline(always)]
    pub fn branch(test: &Self, below: &Self, otherwise: &Self) -> Self {
        if test.u.is_below_zero() {
            return *below;
        }
        if test.u.is_not_below_zero() {
            return *otherwise;
        }
        let u0 = if test.u0.is_below_zero() {
            below.u0
        } else if test.u0.is_not_below_zero() {
            otherwise.u0
        } else {
            below.u0.hull(otherwise.u0)
        };
        Record { u: below.u.hull(otherwise.u), u0, slopes: None }
    }
}
