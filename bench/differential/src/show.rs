//! Memory and answers in words.

use plain::memory::{Answer, ChannelBox, Mark, Record, Sheet, Span};

use crate::call::words;

pub fn answer(answer: &Answer) -> String {
    let Answer { refusal, place, number, middle, margin } = answer;
    format!("refusal {refusal} place {place} number {number} middle {middle} margin {margin}")
}

/// A mark as its number, and its scale behind a caret.
fn mark(Mark { number, scale }: Mark) -> String {
    if scale == 0 { number.to_string() } else { format!("{number}^{scale}") }
}

fn span(Span { lower, upper }: Span) -> String {
    format!("{} {}", mark(lower), mark(upper))
}

pub fn record(record: &Record) -> String {
    let Record { u, u0, a, b, c, slopes } = *record;
    format!("U {} U0 {} A {} B {} C {} slopes {slopes}", span(u), span(u0), span(a), span(b), span(c))
}

pub fn channel_box(over: &ChannelBox) -> String {
    let ChannelBox { lower, upper, channels, swept, centre } = over;
    format!("channels {channels} lower {lower:?} upper {upper:?} swept {swept} centre {centre}")
}

pub fn sheet(sheet: &Sheet) -> String {
    let lines: Vec<_> = sheet.lines.iter().take(sheet.held).map(words).collect();
    format!("{} held {}: {}", channel_box(&sheet.over), sheet.held, lines.join("; "))
}
