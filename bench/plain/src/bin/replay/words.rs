//! Answers in words.

use plain::memory::{Answer, Mark, Record, Span};

pub fn refused(answer: Answer) -> String {
    format!("refused {} at {}", answer.refusal, answer.place)
}

pub fn bytes(bytes: &[u8]) -> String {
    bytes.iter().map(|byte| format!("{byte:02x}")).collect::<Vec<_>>().join(" ")
}

/// A record, whose marks of scale 0 are whole 2^-step.
pub fn record(record: &Record, step: u32) -> String {
    let Record { u, u0, a, b, c, slopes } = record;
    let span = |span: &Span| format!("{} {}", decimal(span.lower, step), decimal(span.upper, step));
    let ends = format!("U {} U0 {}", span(u), span(u0));
    match slopes {
        0 => format!("{ends} no slopes"),
        _ => format!("{ends} A {} B {} C {}", span(a), span(b), span(c)),
    }
}

/// A mark as an exact decimal, with no trailing zeros.
fn decimal(mark: Mark, step: u32) -> String {
    let sign = if mark.number < 0 { "-" } else { "" };
    let size = u128::from(mark.number.unsigned_abs()) << mark.scale;
    let (whole, rest) = (size >> step, size & ((1 << step) - 1));
    // A rest of so many bits has as many decimals.
    let decimals = format!("{:0width$}", (rest * 10u128.pow(step)) >> step, width = step as usize);
    match decimals.trim_end_matches('0') {
        "" => format!("{sign}{whole}"),
        decimals => format!("{sign}{whole}.{decimals}"),
    }
}
