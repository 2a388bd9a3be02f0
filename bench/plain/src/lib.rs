//! Ranges of formulas over boxes of channel readings: the rules of `docs/`, written in ordinary Rust.
//!
//! It was written from the pages in `docs/` and the header `include/huqabo.h` alone, so that it can serve as a second opinion, and for
//! speed, so that it can serve as a yardstick. Nothing allocates.
//!
//! - `memory`: the types of the header, as they lie in the caller's memory
//! - `kind`, `fixed`, `sliding`: number kinds; `span`: spans of their marks
//! - `record`, `product`, `curve`: what is known of a line, and the rules that make it; `evaluate`: the record of any line
//! - `line`, `bytes`: lines, and formulas as bytes
//! - `boxes`, `report`, `calls`, `windows`: boxes, ranges, and the calls on a sheet
//! - `exports`, `table`: the functions of the header

pub mod boxes;
pub mod bytes;
pub mod calls;
pub mod curve;
pub mod evaluate;
pub mod exports;
pub mod fixed;
pub mod kind;
pub mod line;
pub mod memory;
pub mod product;
pub mod record;
pub mod refusal;
pub mod report;
pub mod sliding;
pub mod span;
pub mod table;
pub mod windows;
