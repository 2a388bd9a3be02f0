//! A station's job: one formula over box after box.

use crate::boxes::check_stored;
use crate::bytes::Formula;
use crate::evaluate::record_of;
use crate::kind::Kind;
use crate::memory::{Answer, ChannelBox, LINES};
use crate::record::Record;
use crate::refusal::{Cause, Refusal};
use crate::report::{Report, report};

/// Answers a line's range over each box, as far as there are boxes and answers, and how many that is.
pub fn windows<K: Kind>(bytes: &[u8], line: usize, boxes: &[ChannelBox], answers: &mut [Answer]) -> usize {
    // Reading depends on no box. Only what is refused of a line does, and comes before what stops the reading behind it.
    let formula = Formula::read(bytes);
    let mut records = [Record::<K>::ZERO; LINES];
    for (over, answer) in boxes.iter().zip(answers.iter_mut()) {
        *answer = window(&formula, line, over, &mut records).into();
    }
    boxes.len().min(answers.len())
}

#[inline]
fn window<K: Kind>(
    formula: &Formula,
    line: usize,
    over: &ChannelBox,
    records: &mut [Record<K>; LINES],
) -> Result<Report, Refusal> {
    check_stored(over)?;
    for (number, &line) in formula.lines().iter().enumerate() {
        records[number] = record_of(line, number, over, records)?;
    }
    if let Some(fault) = formula.fault {
        return Err(fault);
    }
    if line >= formula.lines().len() {
        return Err(Cause::NoLine.at(line));
    }
    Ok(report(&records[line], over))
}
