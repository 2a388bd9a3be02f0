//! The types of `include/huqabo.h`, field by field: what lies in the caller's memory. Any content is possible; what it means is decided
//! where it is decoded (`Kind::from_memory`, `Record::from_memory`, `Line::from_memory`, `calls::sound`).

pub const LINES: usize = 64;
pub const CHANNELS: usize = 8;

#[repr(C)]
#[derive(Clone, Copy, Debug, Default, PartialEq, Eq)]
pub struct Mark {
    pub number: i32,
    pub scale: u32,
}

#[repr(C)]
#[derive(Clone, Copy, Debug, Default, PartialEq, Eq)]
pub struct Span {
    pub lower: Mark,
    pub upper: Mark,
}

#[repr(C)]
#[derive(Clone, Copy, Debug, Default, PartialEq, Eq)]
pub struct Record {
    pub u: Span,
    pub u0: Span,
    pub a: Span,
    pub b: Span,
    pub c: Span,
    pub slopes: u32,
}

#[repr(C)]
#[derive(Clone, Copy, Debug, Default, PartialEq, Eq)]
pub struct Line {
    pub operation: u32,
    pub constant: i64,
    pub a: usize,
    pub b: usize,
    pub c: usize,
}

#[repr(C)]
#[derive(Clone, Copy, Debug, PartialEq, Eq)]
pub struct ChannelBox {
    pub lower: [i64; CHANNELS],
    pub upper: [i64; CHANNELS],
    pub channels: usize,
    pub swept: usize,
    pub centre: i64,
}

#[repr(C)]
#[derive(Clone, Copy, Debug, PartialEq, Eq)]
pub struct Sheet {
    pub over: ChannelBox,
    pub held: usize,
    pub lines: [Line; LINES],
}

#[repr(C)]
#[derive(Clone, Copy, Debug, Default, PartialEq, Eq)]
pub struct Answer {
    pub refusal: u32,
    pub place: usize,
    pub number: usize,
    pub middle: i64,
    pub margin: i64,
}

impl ChannelBox {
    /// One channel from 0 to 0, swept about 0.
    pub const BLANK: Self = ChannelBox { lower: [0; CHANNELS], upper: [0; CHANNELS], channels: 1, swept: 0, centre: 0 };
}

impl Sheet {
    /// The blank box, and no line.
    pub const BLANK: Self =
        Sheet { over: ChannelBox::BLANK, held: 0, lines: [Line { operation: 0, constant: 0, a: 0, b: 0, c: 0 }; LINES] };
}

/// The sizes that a C compiler gives these types on a machine of 64 bits.
#[cfg(target_pointer_width = "64")]
const _: () = {
    assert!(size_of::<Mark>() == 8);
    assert!(size_of::<Record>() == 84);
    assert!(size_of::<Line>() == 40);
    assert!(size_of::<ChannelBox>() == 152);
    assert!(size_of::<Sheet>() == 2720);
    assert!(size_of::<Answer>() == 40);
};
