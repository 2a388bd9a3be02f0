//! Boxes of channel ranges.
use crate::raw;

/// The lowest and the highest reading of a channel, in counts of 1/65,536.
#[derive(Clone, Copy, Debug, PartialEq, Eq, Hash)]
pub struct Range {
    /// The lowest reading.
    pub lower: i64,
    /// The highest reading.
    pub upper: i64,
}

/// A box: the ranges of its channels, and the channel that is swept about a centre. It may be one that calls refuse.
#[derive(Clone, Copy, Debug, PartialEq, Eq)]
#[repr(transparent)]
pub struct ChannelBox {
    raw: raw::Box,
}

impl ChannelBox {
    /// The box of these ranges. Where they are not 1 to 8, each call refuses the box with 1.
    #[must_use]
    pub fn new(ranges: &[Range], swept: usize, centre: i64) -> ChannelBox {
        let mut raw = raw::Box { channels: ranges.len(), swept, centre, ..raw::Box::default() };
        for (i, range) in ranges.iter().take(raw::CHANNELS).enumerate() {
            raw.lower[i] = range.lower;
            raw.upper[i] = range.upper;
        }
        ChannelBox { raw }
    }

    /// The box of these ranges with channel 0 swept about its midpoint, rounded down.
    #[must_use]
    pub fn about_midpoint(ranges: &[Range]) -> ChannelBox {
        let sum = ranges.first().map_or(0, |range| range.lower.saturating_add(range.upper));
        ChannelBox::new(ranges, 0, sum.div_euclid(2))
    }

    /// How many channels the box was made of.
    #[must_use]
    pub fn channels(&self) -> usize {
        self.raw.channels
    }

    /// The lower and the upper ends. (Those of more channels than a box can have are one too many, so that the call refuses them.)
    pub(crate) fn ends(&self) -> (&[i64], &[i64]) {
        match self.raw.channels {
            n if n > raw::CHANNELS => (&[], &[]),
            n => (&self.raw.lower[..n], &self.raw.upper[..n]),
        }
    }

    pub(crate) fn raw(&self) -> &raw::Box {
        &self.raw
    }
}
