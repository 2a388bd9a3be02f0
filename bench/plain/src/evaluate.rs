//! The record of a line, from the records of the lines before it.

use std::borrow::Borrow;

use crate::boxes::is_count;
use crate::curve::{magnitude, square};
use crate::kind::Kind;
use crate::line::Line;
use crate::memory::{self, ChannelBox, LINES};
use crate::product::{product, quotient};
use crate::record::Record;
use crate::refusal::{Cause, Refusal};
use crate::span::Span;

/// Where the records of earlier lines come from: memory of the caller, or records at hand.
pub trait Records<K: Kind> {
    type Found<'a>: Borrow<Record<K>>
    where
        Self: 'a;

    fn record(&self, line: usize) -> Self::Found<'_>;
}

impl<K: Kind> Records<K> for [memory::Record; LINES] {
    type Found<'a> = Record<K>;

    #[inline(always)]
    fn record(&self, line: usize) -> Record<K> {
        Record::from_memory(&self[line])
    }
}

impl<K: Kind> Records<K> for [Record<K>; LINES] {
    type Found<'a> = &'a Record<K>;

    #[inline(always)]
    fn record(&self, line: usize) -> &Record<K> {
        &self[line]
    }
}

/// The spans of the swept channel: over its range, and at its centre.
#[inline(always)]
pub fn swept_spans<K: Kind>(over: &ChannelBox) -> (Span<K>, Span<K>) {
    let (low, high) = (over.lower[over.swept], over.upper[over.swept]);
    (Span::of_counts(low, high), Span::of_counts(over.centre, over.centre))
}

/// The record of the line with this number over a box.
#[inline(always)]
pub fn record_of<K: Kind, R: Records<K>>(
    line: Line,
    number: usize,
    over: &ChannelBox,
    records: &R,
) -> Result<Record<K>, Refusal> {
    let operand = |line: usize| if line < number { Ok(records.record(line)) } else { Err(Cause::NoEarlierLine.at(number)) };
    let spanned = |record: Option<Record<K>>| record.ok_or(Cause::NoSpan.at(number));
    match line {
        Line::Channel(channel) if channel >= over.channels => Err(Cause::NoChannel.at(number)),
        Line::Channel(channel) if channel == over.swept => {
            let (range, centre) = swept_spans(over);
            Ok(Record::swept(range, centre))
        }
        Line::Channel(channel) => Ok(Record::still(Span::of_counts(over.lower[channel], over.upper[channel]))),
        Line::Constant(count) if !is_count(count) => Err(Cause::BeyondCounts.at(number)),
        Line::Constant(count) => Ok(Record::still(Span::of_counts(count, count))),
        Line::Sum(u, v) => spanned(Record::sum(operand(u)?.borrow(), operand(v)?.borrow())),
        Line::Difference(u, v) => spanned(Record::difference(operand(u)?.borrow(), operand(v)?.borrow())),
        Line::Product(u, v) => spanned(product(operand(u)?.borrow(), operand(v)?.borrow())),
        Line::Quotient(u, v) => {
            let (u, v) = (operand(u)?, operand(v)?);
            if v.borrow().u.holds_zero() {
                return Err(Cause::DivisorHoldsZero.at(number));
            }
            spanned(quotient(u.borrow(), v.borrow()))
        }
        Line::Square(u) => spanned(square(operand(u)?.borrow())),
        Line::Magnitude(u) => Ok(magnitude(operand(u)?.borrow())),
        Line::Greater(u, v) => Ok(Record::greater(operand(u)?.borrow(), operand(v)?.borrow())),
        Line::Lesser(u, v) => Ok(Record::lesser(operand(u)?.borrow(), operand(v)?.borrow())),
        Line::Branch(s, q, r) => Ok(Record::branch(operand(s)?.borrow(), operand(q)?.borrow(), operand(r)?.borrow())),
    }
}
