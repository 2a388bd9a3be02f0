//! The records of products and quotients.

use crate::kind::Kind;
use crate::record::{Record, Slopes};
use crate::span::Span;

#[inline]
pub fn product<K: Kind>(u: &Record<K>, v: &Record<K>) -> Option<Record<K>> {
    Some(Record { u: u.u.times(v.u)?, u0: u.u0.times(v.u0)?, slopes: product_slopes(u, v) })
}

#[inline]
fn product_slopes<K: Kind>(u: &Record<K>, v: &Record<K>) -> Option<Slopes<K>> {
    let (p, q) = (u.slopes?, v.slopes?);
    let a = p.a.times(v.u0)?.plus(u.u.times(q.a)?)?;
    let b = p.b.times(v.u0)?.plus(u.u0.times(q.b)?)?;
    let c = p.c.times(v.u0)?.plus(u.u.times(q.c)?)?.plus(p.a.times(q.b)?)?;
    Some(Slopes { a, b, c })
}

/// The quotient, where the divisor's span over the box does not hold 0.
#[inline]
pub fn quotient<K: Kind>(u: &Record<K>, v: &Record<K>) -> Option<Record<K>> {
    let (ratio, ratio0) = (u.u.over(v.u)?, u.u0.over(v.u0)?);
    Some(Record { u: ratio, u0: ratio0, slopes: quotient_slopes(u, v, ratio0) })
}

#[inline]
fn quotient_slopes<K: Kind>(u: &Record<K>, v: &Record<K>, ratio0: Span<K>) -> Option<Slopes<K>> {
    let (p, q) = (u.slopes?, v.slopes?);
    let a = p.a.minus(ratio0.times(q.a)?)?.over(v.u)?;
    let b = p.b.minus(ratio0.times(q.b)?)?.over(v.u0)?;
    let c = p.c.minus(ratio0.times(q.c)?)?.minus(b.times(q.a)?)?.over(v.u)?;
    Some(Slopes { a, b, c })
}
