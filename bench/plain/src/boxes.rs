//! Boxes of channel ranges: which are taken, and which new range of a channel is.

use crate::memory::{CHANNELS, ChannelBox};
use crate::refusal::{Cause, Refusal};

const GREATEST_COUNT: i64 = 1_073_741_823;

pub fn is_count(number: i64) -> bool {
    (-GREATEST_COUNT..=GREATEST_COUNT).contains(&number)
}

fn check(holds: bool, cause: Cause, place: usize) -> Result<(), Refusal> {
    if holds { Ok(()) } else { Err(cause.at(place)) }
}

/// Whether these ranges make a box.
pub fn check_box(lower: &[i64], upper: &[i64], swept: usize, centre: i64) -> Result<(), Refusal> {
    let channels = lower.len();
    check((1..=CHANNELS).contains(&channels) && upper.len() == channels, Cause::Channels, 0)?;
    for (channel, (&low, &high)) in lower.iter().zip(upper).enumerate() {
        check(is_count(low) && is_count(high), Cause::BeyondCounts, channel)?;
        check(low <= high, Cause::EndsCrossed, channel)?;
    }
    check(swept < channels, Cause::NoChannel, swept)?;
    check(is_count(centre), Cause::BeyondCounts, swept)?;
    check(lower[swept] <= centre && centre <= upper[swept], Cause::CentreOutside, swept)
}

/// The box over these ranges.
pub fn opened(lower: &[i64], upper: &[i64], swept: usize, centre: i64) -> Result<ChannelBox, Refusal> {
    check_box(lower, upper, swept, centre)?;
    let mut over = ChannelBox { channels: lower.len(), swept, centre, ..ChannelBox::BLANK };
    over.lower[..lower.len()].copy_from_slice(lower);
    over.upper[..upper.len()].copy_from_slice(upper);
    Ok(over)
}

/// Whether stored memory is a box, told as open would.
pub fn check_stored(over: &ChannelBox) -> Result<(), Refusal> {
    let channels = over.channels;
    check((1..=CHANNELS).contains(&channels), Cause::Channels, 0)?;
    check_box(&over.lower[..channels], &over.upper[..channels], over.swept, over.centre)
}

/// The box with a new range of one channel, and with a new centre if that is the swept one.
pub fn moved(over: &ChannelBox, channel: usize, lower: i64, upper: i64, centre: i64) -> Result<ChannelBox, Refusal> {
    check(channel < over.channels, Cause::NoChannel, channel)?;
    let swept = channel == over.swept;
    check(is_count(lower) && is_count(upper), Cause::BeyondCounts, channel)?;
    check(!swept || is_count(centre), Cause::BeyondCounts, channel)?;
    check(lower <= upper, Cause::EndsCrossed, channel)?;
    check(!swept || (lower <= centre && centre <= upper), Cause::CentreOutside, channel)?;

    let mut moved = *over;
    moved.lower[channel] = lower;
    moved.upper[channel] = upper;
    if swept {
        moved.centre = centre;
    }
    Ok(moved)
}
