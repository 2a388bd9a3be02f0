//! Square and magnitude: curves, which one rule lifts from a value to a record.

use crate::kind::Kind;
use crate::record::{Record, Slopes};
use crate::span::Span;

/// How a curve f bends: f(u) - f(u0) = g * (u - u0), and g = e + k * (u - u0).
struct Bend<K: Kind> {
    e: Span<K>,
    g: Span<K>,
    k: Span<K>,
}

#[inline]
fn lifted<K: Kind>(slopes: Option<Slopes<K>>, bend: impl FnOnce() -> Option<Bend<K>>) -> Option<Slopes<K>> {
    let under = slopes?;
    let Bend { e, g, k } = bend()?;
    Some(Slopes { a: g.times(under.a)?, b: e.times(under.b)?, c: g.times(under.c)?.plus(k.times(under.a)?.times(under.b)?)? })
}

#[inline]
pub fn square<K: Kind>(u: &Record<K>) -> Option<Record<K>> {
    let bend = || Some(Bend { e: u.u0.plus(u.u0)?, g: u.u.plus(u.u0)?, k: Span::ONE });
    Some(Record { u: u.u.square()?, u0: u.u0.square()?, slopes: lifted(u.slopes, bend) })
}

#[inline]
pub fn magnitude<K: Kind>(u: &Record<K>) -> Record<K> {
    Record { u: u.u.magnitude(), u0: u.u0.magnitude(), slopes: lifted(u.slopes, || magnitude_bend(u.u, u.u0)) }
}

#[inline]
fn magnitude_bend<K: Kind>(u: Span<K>, u0: Span<K>) -> Option<Bend<K>> {
    let (rising, falling) = (Span::ONE, Span::ONE.negative());
    if u.upper <= K::ZERO {
        Some(Bend { e: falling, g: falling, k: Span::ZERO })
    } else if u.lower >= K::ZERO {
        Some(Bend { e: rising, g: rising, k: Span::ZERO })
    } else if u0.upper < K::ZERO {
        kink_above(u.upper, u0.upper)
    } else if u0.lower > K::ZERO {
        let mirrored = kink_above(-u.lower, -u0.lower)?;
        Some(Bend { e: mirrored.e.negative(), g: mirrored.g.negative(), k: mirrored.k })
    } else {
        let either = falling.hull(rising);
        Some(Bend { e: either, g: either, k: Span::ZERO })
    }
}

/// The magnitude falls at the centre, whose span ends at `s` below 0, and may rise up to `q` above 0.
#[inline]
fn kink_above<K: Kind>(q: K::Mark, s: K::Mark) -> Option<Bend<K>> {
    let falling = Span::ONE.negative();
    let (q, s) = (Span::<K>::point(q), Span::<K>::point(s));
    let steepest = q.plus(s)?.over(q.minus(s)?)?.upper;
    let sharpest = Span::ONE.over(s.negative().plus(s.negative())?)?.upper;
    Some(Bend { e: falling, g: Span { lower: falling.lower, upper: steepest }, k: Span { lower: K::ZERO, upper: sharpest } })
}
