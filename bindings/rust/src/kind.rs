//! The two kinds of numbers.
use crate::raw;
use std::fmt::Debug;

mod sealed {
    pub trait Sealed {
        fn calls() -> &'static crate::raw::Calls;
    }
}

pub(crate) use sealed::Sealed;

/// A kind of numbers: [`Fixed`] or [`Sliding`]. A sheet belongs to one kind, by its type.
pub trait Kind: Sealed + Copy + Debug + 'static {
    /// The kind's name, as the program `huqabo` takes it.
    const NAME: &'static str;
}

/// Whole 1/65,536, up to a size of 16,384.
#[derive(Clone, Copy, Debug, PartialEq, Eq)]
pub enum Fixed {}

/// Marks of 24 bits at any scale, from 1/16,777,216 up to a size of 2^32.
#[derive(Clone, Copy, Debug, PartialEq, Eq)]
pub enum Sliding {}

impl Kind for Fixed {
    const NAME: &'static str = "fixed";
}

impl Kind for Sliding {
    const NAME: &'static str = "sliding";
}

impl Sealed for Fixed {
    fn calls() -> &'static raw::Calls {
        &raw::FIXED
    }
}

impl Sealed for Sliding {
    fn calls() -> &'static raw::Calls {
        &raw::SLIDING
    }
}
