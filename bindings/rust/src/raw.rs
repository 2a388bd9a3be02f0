//! The C interface as it is. `include/huqabo.h` says what each call takes, answers and leaves.

pub const LINES: usize = 64;
pub const CHANNELS: usize = 8;

#[repr(C)]
#[derive(Clone, Copy, Debug, Default, PartialEq, Eq)]
pub struct Mark {
    pub number: i32,
    pub scale: u32,
}

#[repr(C)]
#[derive(Clone, Copy, Debug, Default, PartialEq, Eq)]
pub struct Span {
    pub lower: Mark,
    pub upper: Mark,
}

#[repr(C)]
#[derive(Clone, Copy, Debug, Default, PartialEq, Eq)]
pub struct Record {
    pub u: Span,
    pub u0: Span,
    pub a: Span,
    pub b: Span,
    pub c: Span,
    pub slopes: u32,
}

#[repr(C)]
#[derive(Clone, Copy, Debug, Default, PartialEq, Eq)]
pub struct Line {
    pub operation: u32,
    pub constant: i64,
    pub a: usize,
    pub b: usize,
    pub c: usize,
}

#[repr(C)]
#[derive(Clone, Copy, Debug, Default, PartialEq, Eq)]
pub struct Box {
    pub lower: [i64; CHANNELS],
    pub upper: [i64; CHANNELS],
    pub channels: usize,
    pub swept: usize,
    pub centre: i64,
}

#[repr(C)]
#[derive(Clone, Copy, Debug, PartialEq, Eq)]
pub struct Sheet {
    pub over: Box,
    pub held: usize,
    pub lines: [Line; LINES],
}

#[repr(C)]
#[derive(Clone, Copy, Debug, Default, PartialEq, Eq)]
pub struct Answer {
    pub refusal: u32,
    pub place: usize,
    pub number: usize,
    pub middle: i64,
    pub margin: i64,
}

// The sizes of the header's types on x86-64. (A test has the offsets too.)
const _: () = {
    assert!(size_of::<Record>() == 84 && size_of::<Line>() == 40 && size_of::<Box>() == 152);
    assert!(size_of::<Sheet>() == 2720 && size_of::<Answer>() == 40);
};

type Open = unsafe extern "C" fn(*mut Sheet, *const i64, usize, *const i64, usize, usize, i64) -> Answer;
type Add = unsafe extern "C" fn(*mut Sheet, *mut Record, usize, *const Line) -> Answer;
type Strike = unsafe extern "C" fn(*mut Sheet) -> Answer;
type Move = unsafe extern "C" fn(*mut Sheet, *mut Record, usize, *mut Record, usize, usize, i64, i64, i64) -> Answer;
type Read = unsafe extern "C" fn(*mut Sheet, *mut Record, usize, *const u8, usize) -> Answer;
type Write = unsafe extern "C" fn(*const Sheet, *mut u8, usize) -> Answer;
type Report = unsafe extern "C" fn(*const Sheet, *const Record, usize, usize) -> Answer;
type Windows = unsafe extern "C" fn(*const u8, usize, usize, *const Box, usize, *mut Answer, usize) -> usize;

/// The calls of a kind.
#[derive(Debug)]
pub struct Calls {
    pub open: Open,
    pub add: Add,
    pub strike: Strike,
    pub move_channel: Move,
    pub read: Read,
    pub write: Write,
    pub report: Report,
    pub windows: Windows,
}

macro_rules! calls {
    ($name:ident, $open:ident, $add:ident, $strike:ident, $move:ident, $read:ident, $write:ident, $report:ident, $windows:ident) => {
        unsafe extern "C" {
            fn $open(
                sheet: *mut Sheet,
                lower: *const i64,
                lowers: usize,
                upper: *const i64,
                uppers: usize,
                swept: usize,
                centre: i64,
            ) -> Answer;
            fn $add(sheet: *mut Sheet, working: *mut Record, workings: usize, line: *const Line) -> Answer;
            fn $strike(sheet: *mut Sheet) -> Answer;
            fn $move(
                sheet: *mut Sheet,
                working: *mut Record,
                workings: usize,
                spare: *mut Record,
                spares: usize,
                channel: usize,
                lower: i64,
                upper: i64,
                centre: i64,
            ) -> Answer;
            fn $read(
                sheet: *mut Sheet,
                working: *mut Record,
                workings: usize,
                bytes: *const u8,
                length: usize,
            ) -> Answer;
            fn $write(sheet: *const Sheet, out: *mut u8, room: usize) -> Answer;
            fn $report(sheet: *const Sheet, working: *const Record, workings: usize, line: usize) -> Answer;
            fn $windows(
                bytes: *const u8,
                length: usize,
                line: usize,
                boxes: *const Box,
                windows: usize,
                answers: *mut Answer,
                room: usize,
            ) -> usize;
        }

        pub static $name: Calls = Calls {
            open: $open,
            add: $add,
            strike: $strike,
            move_channel: $move,
            read: $read,
            write: $write,
            report: $report,
            windows: $windows,
        };
    };
}

calls!(
    FIXED,
    huqabo_fixed_open,
    huqabo_fixed_add,
    huqabo_fixed_strike,
    huqabo_fixed_move,
    huqabo_fixed_read,
    huqabo_fixed_write,
    huqabo_fixed_report,
    huqabo_fixed_windows
);
calls!(
    SLIDING,
    huqabo_sliding_open,
    huqabo_sliding_add,
    huqabo_sliding_strike,
    huqabo_sliding_move,
    huqabo_sliding_read,
    huqabo_sliding_write,
    huqabo_sliding_report,
    huqabo_sliding_windows
);
