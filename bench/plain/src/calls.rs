//! The calls on a sheet in the caller's memory.

use crate::boxes::{check_stored, moved, opened};
use crate::bytes::{self, Formula};
use crate::evaluate::{Records, record_of};
use crate::kind::Kind;
use crate::line::{LAST_OPERATION, Line};
use crate::memory::{self, ChannelBox, LINES, Sheet};
use crate::refusal::{Cause, Refusal};
use crate::report::{Report, report};

/// The 64 records that a call works with, or none if fewer were lent.
pub type Lent<'a> = Option<&'a mut [memory::Record; LINES]>;

/// Whether memory is a sheet.
fn sound(sheet: &Sheet) -> bool {
    sheet.held <= LINES && check_stored(&sheet.over).is_ok()
}

/// Memory that is no sheet counts as a blank one.
fn taken(sheet: &mut Sheet) -> &mut Sheet {
    if !sound(sheet) {
        sheet.over = ChannelBox::BLANK;
        sheet.held = 0;
    }
    sheet
}

fn held(sheet: &Sheet) -> &[memory::Line] {
    if sound(sheet) { &sheet.lines[..sheet.held] } else { &[] }
}

pub fn open(sheet: &mut Sheet, lower: &[i64], upper: &[i64], swept: usize, centre: i64) -> Result<(), Refusal> {
    sheet.over = opened(lower, upper, swept, centre)?;
    sheet.held = 0;
    Ok(())
}

pub fn add<K: Kind>(sheet: &mut Sheet, working: Lent, line: &memory::Line) -> Result<usize, Refusal> {
    if line.operation > LAST_OPERATION {
        return Err(Cause::BadOperation.at(0));
    }
    let sheet = taken(sheet);
    let working = working.ok_or(Cause::FewRecords.at(0))?;
    let number = sheet.held;
    if number == LINES {
        return Err(Cause::Full.at(LINES));
    }
    let line = Line::from_memory(line);
    working[number] = record_of::<K, _>(line, number, &sheet.over, working)?.to_memory();
    sheet.lines[number] = line.to_memory();
    sheet.held += 1;
    Ok(number)
}

pub fn strike(sheet: &mut Sheet) -> Result<(), Refusal> {
    let sheet = taken(sheet);
    sheet.held = sheet.held.checked_sub(1).ok_or(Cause::NoLine.at(0))?;
    Ok(())
}

/// A new range of a channel: what the arguments of move say.
pub struct Range {
    pub channel: usize,
    pub lower: i64,
    pub upper: i64,
    pub centre: i64,
}

pub fn move_channel<K: Kind>(sheet: &mut Sheet, working: Lent, spare: Lent, range: Range) -> Result<(), Refusal> {
    let sheet = taken(sheet);
    let working = working.ok_or(Cause::FewRecords.at(0))?;
    let spare = spare.ok_or(Cause::FewRecords.at(0))?;
    let over = moved(&sheet.over, range.channel, range.lower, range.upper, range.centre)?;
    for number in 0..sheet.held {
        let line = Line::from_memory(&sheet.lines[number]);
        spare[number] = record_of::<K, _>(line, number, &over, spare)?.to_memory();
    }
    working[..sheet.held].copy_from_slice(&spare[..sheet.held]);
    sheet.over = over;
    Ok(())
}

pub fn read<K: Kind>(sheet: &mut Sheet, working: Lent, bytes: &[u8]) -> Result<(), Refusal> {
    let sheet = taken(sheet);
    let working = working.ok_or(Cause::FewRecords.at(0))?;
    if sheet.held > 0 {
        return Err(Cause::NotEmpty.at(0));
    }
    let formula = Formula::read(bytes);
    for (number, &line) in formula.lines().iter().enumerate() {
        working[number] = record_of::<K, _>(line, number, &sheet.over, working)?.to_memory();
        sheet.lines[number] = line.to_memory();
    }
    if let Some(fault) = formula.fault {
        return Err(fault);
    }
    sheet.held = formula.lines().len();
    Ok(())
}

pub fn write(sheet: &Sheet, out: &mut [u8]) -> Result<usize, Refusal> {
    let lines = held(sheet);
    if lines.is_empty() {
        return Err(Cause::NoLine.at(0));
    }
    bytes::write(lines.iter().map(Line::from_memory), out)
}

pub fn report_line<K: Kind>(sheet: &Sheet, working: Option<&[memory::Record; LINES]>, line: usize) -> Result<Report, Refusal> {
    let working = working.ok_or(Cause::FewRecords.at(0))?;
    if line >= held(sheet).len() {
        return Err(Cause::NoLine.at(line));
    }
    Ok(report(&Records::<K>::record(working, line), &sheet.over))
}
