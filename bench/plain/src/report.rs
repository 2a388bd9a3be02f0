//! The range of a line, from its record.

use crate::evaluate::swept_spans;
use crate::kind::Kind;
use crate::memory::ChannelBox;
use crate::record::Record;
use crate::span::Span;

/// The range lies within `margin` of `middle`, both in counts.
#[derive(Clone, Copy, Debug, PartialEq, Eq)]
pub struct Report {
    pub middle: i64,
    pub margin: i64,
}

#[inline]
pub fn report<K: Kind>(record: &Record<K>, over: &ChannelBox) -> Report {
    let range = range(record, over);
    let (low, high) = (K::whole_below(range.lower), K::whole_above(range.upper));
    let middle = (low + high) >> 1;
    Report { middle, margin: high - middle }
}

/// What lies in the span over the box and in both forms by the slopes, of those there are.
#[inline]
fn range<K: Kind>(record: &Record<K>, over: &ChannelBox) -> Span<K> {
    let (range, centre) = swept_spans::<K>(over);
    let (Some(slopes), Some(distance)) = (record.slopes, range.minus(centre)) else {
        return record.u;
    };
    let first = || record.u0.plus(slopes.a.times(distance)?);
    let second = || {
        let straight = slopes.b.times(distance)?;
        record.u0.plus(straight.plus(slopes.c.times(distance.times(distance)?)?)?)
    };
    [first(), second()].into_iter().flatten().fold(record.u, Span::intersection)
}
