//! The two libraries: the plain evaluator, and the one under test.

use plain::memory::{Answer, ChannelBox, Line, Record, Sheet};
use plain::table::Calls;

#[derive(Clone, Copy, PartialEq, Eq)]
pub enum Kind {
    Fixed,
    Sliding,
}

impl Kind {
    pub const ALL: [Self; 2] = [Kind::Fixed, Kind::Sliding];

    pub fn name(self) -> &'static str {
        match self {
            Kind::Fixed => "fixed",
            Kind::Sliding => "sliding",
        }
    }

    pub fn plain(self) -> Calls {
        match self {
            Kind::Fixed => plain::exports::FIXED,
            Kind::Sliding => plain::exports::SLIDING,
        }
    }

    pub fn tested(self) -> Calls {
        match self {
            Kind::Fixed => TESTED_FIXED,
            Kind::Sliding => TESTED_SLIDING,
        }
    }
}

macro_rules! tested {
    ($table:ident: $open:ident $add:ident $strike:ident $move:ident $read:ident $write:ident $report:ident $windows:ident) => {
        unsafe extern "C" {
            fn $open(s: *mut Sheet, l: *const i64, ls: usize, u: *const i64, us: usize, swept: usize, centre: i64) -> Answer;
            fn $add(s: *mut Sheet, w: *mut Record, ws: usize, line: *const Line) -> Answer;
            fn $strike(s: *mut Sheet) -> Answer;
            fn $move(
                s: *mut Sheet,
                w: *mut Record,
                ws: usize,
                p: *mut Record,
                ps: usize,
                channel: usize,
                lower: i64,
                upper: i64,
                centre: i64,
            ) -> Answer;
            fn $read(s: *mut Sheet, w: *mut Record, ws: usize, bytes: *const u8, length: usize) -> Answer;
            fn $write(s: *const Sheet, out: *mut u8, room: usize) -> Answer;
            fn $report(s: *const Sheet, w: *const Record, ws: usize, line: usize) -> Answer;
            fn $windows(
                bytes: *const u8,
                length: usize,
                line: usize,
                boxes: *const ChannelBox,
                windows: usize,
                answers: *mut Answer,
                room: usize,
            ) -> usize;
        }

        const $table: Calls = Calls {
            open: $open,
            add: $add,
            strike: $strike,
            move_channel: $move,
            read: $read,
            write: $write,
            report: $report,
            windows: $windows,
        };
    };
}

tested!(TESTED_FIXED: huqabo_fixed_open huqabo_fixed_add huqabo_fixed_strike huqabo_fixed_move
    huqabo_fixed_read huqabo_fixed_write huqabo_fixed_report huqabo_fixed_windows);
tested!(TESTED_SLIDING: huqabo_sliding_open huqabo_sliding_add huqabo_sliding_strike huqabo_sliding_move
    huqabo_sliding_read huqabo_sliding_write huqabo_sliding_report huqabo_sliding_windows);
