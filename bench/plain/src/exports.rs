//! The functions of `include/huqabo.h`, under the prefix `plain_`.
//!
//! # Safety
//!
//! Of every function: pointers are not null, are aligned, and have as much initialised memory behind them as their type and length say; no two
//! share memory unless both are const.

#![allow(clippy::missing_safety_doc)]

use std::slice::{from_raw_parts, from_raw_parts_mut};

use crate::calls::{self, Lent, Range};
use crate::fixed::Fixed;
use crate::memory::{Answer, ChannelBox, LINES, Line, Record, Sheet};
use crate::refusal::Refusal;
use crate::report::Report;
use crate::sliding::Sliding;
use crate::table::Calls;
use crate::windows;

impl From<Refusal> for Answer {
    fn from(refusal: Refusal) -> Self {
        Answer { refusal: refusal.cause as u32, place: refusal.place, ..Default::default() }
    }
}

impl From<()> for Answer {
    fn from((): ()) -> Self {
        Answer::default()
    }
}

impl From<usize> for Answer {
    fn from(number: usize) -> Self {
        Answer { number, ..Default::default() }
    }
}

impl From<Report> for Answer {
    fn from(report: Report) -> Self {
        Answer { middle: report.middle, margin: report.margin, ..Default::default() }
    }
}

impl<T: Into<Answer>> From<Result<T, Refusal>> for Answer {
    fn from(result: Result<T, Refusal>) -> Self {
        result.map_or_else(Answer::from, T::into)
    }
}

/// The first 64 records, if so many are lent.
unsafe fn lent<'a>(records: *mut Record, length: usize) -> Lent<'a> {
    (length >= LINES).then(|| unsafe { &mut *records.cast() })
}

macro_rules! export {
    ($kind:ty, $table:ident: $open:ident $add:ident $strike:ident $move:ident $read:ident $write:ident $report:ident $windows:ident) => {
        pub const $table: Calls = Calls {
            open: $open,
            add: $add,
            strike: $strike,
            move_channel: $move,
            read: $read,
            write: $write,
            report: $report,
            windows: $windows,
        };

        #[unsafe(no_mangle)]
        pub unsafe extern "C" fn $open(
            sheet: *mut Sheet,
            lower: *const i64,
            lowers: usize,
            upper: *const i64,
            uppers: usize,
            swept: usize,
            centre: i64,
        ) -> Answer {
            let (lower, upper) = unsafe { (from_raw_parts(lower, lowers), from_raw_parts(upper, uppers)) };
            calls::open(unsafe { &mut *sheet }, lower, upper, swept, centre).into()
        }

        #[unsafe(no_mangle)]
        pub unsafe extern "C" fn $add(sheet: *mut Sheet, working: *mut Record, workings: usize, line: *const Line) -> Answer {
            unsafe { calls::add::<$kind>(&mut *sheet, lent(working, workings), &*line) }.into()
        }

        #[unsafe(no_mangle)]
        pub unsafe extern "C" fn $strike(sheet: *mut Sheet) -> Answer {
            calls::strike(unsafe { &mut *sheet }).into()
        }

        #[unsafe(no_mangle)]
        pub unsafe extern "C" fn $move(
            sheet: *mut Sheet,
            working: *mut Record,
            workings: usize,
            spare: *mut Record,
            spares: usize,
            channel: usize,
            lower: i64,
            upper: i64,
            centre: i64,
        ) -> Answer {
            let (working, spare) = unsafe { (lent(working, workings), lent(spare, spares)) };
            let range = Range { channel, lower, upper, centre };
            calls::move_channel::<$kind>(unsafe { &mut *sheet }, working, spare, range).into()
        }

        #[unsafe(no_mangle)]
        pub unsafe extern "C" fn $read(
            sheet: *mut Sheet,
            working: *mut Record,
            workings: usize,
            bytes: *const u8,
            length: usize,
        ) -> Answer {
            let bytes = unsafe { from_raw_parts(bytes, length) };
            calls::read::<$kind>(unsafe { &mut *sheet }, unsafe { lent(working, workings) }, bytes).into()
        }

        #[unsafe(no_mangle)]
        pub unsafe extern "C" fn $write(sheet: *const Sheet, out: *mut u8, room: usize) -> Answer {
            calls::write(unsafe { &*sheet }, unsafe { from_raw_parts_mut(out, room) }).into()
        }

        #[unsafe(no_mangle)]
        pub unsafe extern "C" fn $report(sheet: *const Sheet, working: *const Record, workings: usize, line: usize) -> Answer {
            let working = (workings >= LINES).then(|| unsafe { &*working.cast() });
            calls::report_line::<$kind>(unsafe { &*sheet }, working, line).into()
        }

        #[unsafe(no_mangle)]
        pub unsafe extern "C" fn $windows(
            bytes: *const u8,
            length: usize,
            line: usize,
            boxes: *const ChannelBox,
            windows: usize,
            answers: *mut Answer,
            room: usize,
        ) -> usize {
            let (bytes, boxes) = unsafe { (from_raw_parts(bytes, length), from_raw_parts(boxes, windows)) };
            windows::windows::<$kind>(bytes, line, boxes, unsafe { from_raw_parts_mut(answers, room) })
        }
    };
}

#[cfg(not(feature = "stand_in"))]
export!(Fixed, FIXED: plain_fixed_open plain_fixed_add plain_fixed_strike plain_fixed_move
    plain_fixed_read plain_fixed_write plain_fixed_report plain_fixed_windows);
#[cfg(not(feature = "stand_in"))]
export!(Sliding, SLIDING: plain_sliding_open plain_sliding_add plain_sliding_strike plain_sliding_move
    plain_sliding_read plain_sliding_write plain_sliding_report plain_sliding_windows);

#[cfg(feature = "stand_in")]
export!(Fixed, FIXED: huqabo_fixed_open huqabo_fixed_add huqabo_fixed_strike huqabo_fixed_move
    huqabo_fixed_read huqabo_fixed_write huqabo_fixed_report huqabo_fixed_windows);
#[cfg(feature = "stand_in")]
export!(Sliding, SLIDING: huqabo_sliding_open huqabo_sliding_add huqabo_sliding_strike huqabo_sliding_move
    huqabo_sliding_read huqabo_sliding_write huqabo_sliding_report huqabo_sliding_windows);
