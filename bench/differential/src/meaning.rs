//! What memory means, by the words of the header: so that two memories can be compared which mean the same in other bytes.

use plain::memory::{CHANNELS, ChannelBox, LINES, Line, Mark, Record, Sheet, Span};

use crate::library::Kind;
use crate::numbers::GREATEST;

/// A mark that the kind does not have means 0.
pub fn mark(kind: Kind, stored: Mark) -> Mark {
    let Mark { number, scale } = stored;
    let size = number.unsigned_abs();
    match kind {
        Kind::Fixed if i64::from(size) <= GREATEST => Mark { number, scale: 0 },
        Kind::Sliding if scale <= 32 && size < 1 << 24 && (scale == 0 || size >= 1 << 23) => stored,
        _ => Mark::default(),
    }
}

/// A number that orders the marks of a kind like their values.
pub fn order(kind: Kind, stored: Mark) -> i64 {
    let Mark { number, scale } = mark(kind, stored);
    i64::from(number) << scale
}

pub fn is_crossed(kind: Kind, span: Span) -> bool {
    order(kind, span.lower) > order(kind, span.upper)
}

/// The spans of a record that say something.
fn spans(record: &Record) -> impl Iterator<Item = Span> {
    let used = if record.slopes == 0 { 2 } else { 5 };
    [record.u, record.u0, record.a, record.b, record.c].into_iter().take(used)
}

pub fn has_crossed(kind: Kind, record: &Record) -> bool {
    spans(record).any(|span| is_crossed(kind, span))
}

pub fn record(kind: Kind, stored: &Record) -> Record {
    let span = |span: Span| Span { lower: mark(kind, span.lower), upper: mark(kind, span.upper) };
    let Record { u, u0, a, b, c, slopes } = *stored;
    if slopes == 0 {
        Record { u: span(u), u0: span(u0), ..Record::default() }
    } else {
        Record { u: span(u), u0: span(u0), a: span(a), b: span(b), c: span(c), slopes: 1 }
    }
}

/// A line with nothing in the fields that its operation does not need.
pub fn line(stored: &Line) -> Line {
    let Line { operation, constant, a, b, c } = *stored;
    match operation {
        1 => Line { operation, constant, ..Line::default() },
        0 | 6 | 7 => Line { operation, a, ..Line::default() },
        2..=5 | 8 | 9 => Line { operation, a, b, ..Line::default() },
        _ => Line { operation: 10, a, b, c, ..Line::default() },
    }
}

pub fn is_box(over: &ChannelBox) -> bool {
    let count = |number: i64| (-GREATEST..=GREATEST).contains(&number);
    let range = |channel: usize| over.lower[channel]..=over.upper[channel];
    (1..=CHANNELS).contains(&over.channels)
        && over.swept < over.channels
        && (0..over.channels).all(|channel| count(over.lower[channel]) && count(over.upper[channel]))
        && (0..over.channels).all(|channel| !range(channel).is_empty())
        && range(over.swept).contains(&over.centre)
}

/// Memory that is no sheet means a blank one. Only the channels of the box and the held lines say something.
pub fn sheet(stored: &Sheet) -> Sheet {
    let mut sheet = Sheet::BLANK;
    if stored.held > LINES || !is_box(&stored.over) {
        return sheet;
    }
    let ChannelBox { lower, upper, channels, swept, centre } = stored.over;
    sheet.over = ChannelBox { channels, swept, centre, ..ChannelBox::BLANK };
    sheet.over.lower[..channels].copy_from_slice(&lower[..channels]);
    sheet.over.upper[..channels].copy_from_slice(&upper[..channels]);
    sheet.held = stored.held;
    for (place, stored) in sheet.lines.iter_mut().zip(&stored.lines[..stored.held]) {
        *place = line(stored);
    }
    sheet
}
