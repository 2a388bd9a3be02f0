//! Range evaluation over boxes of channel ranges, for stations that keep the lowest and the highest reading of each channel and no samples.
//! A formula is evaluated over such a box, and the answer is a middle and a margin that its value lies within, whatever the readings were.
//!
//! This wraps the C interface of the proved library. Nothing is on the heap, and nothing is kept between two calls but what is in a
//! [`Sheet`]. All that `include/huqabo.h` says a caller owes is kept by the types here.
//!
//! ```
//! use huqabo::{ChannelBox, Fixed, Line, Range, Sheet};
//!
//! // The square of a reading from 1 to 3, swept about 2. Counts are whole 1/65,536.
//! let mut sheet = Sheet::<Fixed>::blank();
//! sheet.open(&ChannelBox::new(&[Range { lower: 65_536, upper: 196_608 }], 0, 131_072))?;
//! let reading = sheet.add(Line::Channel(0))?;
//! let square = sheet.add(Line::Square(reading))?;
//! assert_eq!(sheet.report(square)?.to_string(), "middle 327680 margin 262144");
//! # Ok::<(), huqabo::Refusal>(())
//! ```
#![warn(missing_docs)]

mod answer;
mod channel_box;
mod kind;
mod line;
mod raw;
mod sheet;
#[cfg(test)]
mod tests;
mod windows;

pub use answer::{Refusal, Report};
pub use channel_box::{ChannelBox, Range};
pub use kind::{Fixed, Kind, Sliding};
pub use line::Line;
pub use sheet::Sheet;
pub use windows::{Answer, window, windows};

/// How many lines a sheet can hold.
pub const LINES: usize = raw::LINES;

/// How many channels a box can have.
pub const CHANNELS: usize = raw::CHANNELS;

/// How many bytes any formula takes at most: one for the number of its lines, and six for each constant.
pub const FORMULA_BYTES: usize = 1 + 6 * raw::LINES;
