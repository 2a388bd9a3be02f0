//! Random boxes, sound and unsound.

use plain::memory::{CHANNELS, ChannelBox};

use crate::numbers::{GREATEST, Sizes, beyond, centre, wild};
use crate::random::Random;

/// What open is given.
#[derive(Clone)]
pub struct Draft {
    pub lower: Vec<i64>,
    pub upper: Vec<i64>,
    pub swept: usize,
    pub centre: i64,
}

impl Draft {
    pub fn sound(random: &mut Random, sizes: Sizes) -> Self {
        let channels = 1 + random.below(CHANNELS);
        Self::of_channels(random, sizes, channels)
    }

    pub fn of_channels(random: &mut Random, sizes: Sizes, channels: usize) -> Self {
        let (lower, upper): (Vec<_>, Vec<_>) = (0..channels).map(|_| sizes.range(random)).unzip();
        let swept = random.below(channels.max(1));
        let centre = if channels > 0 { centre(random, (lower[swept], upper[swept])) } else { 0 };
        Draft { lower, upper, swept, centre }
    }

    /// Another box like this one: some ranges, the centre and perhaps the swept channel are drawn anew, and other ranges are shifted.
    pub fn varied(&self, random: &mut Random, sizes: Sizes) -> Self {
        let mut draft = self.clone();
        for channel in 0..draft.lower.len() {
            let (lower, upper) = (&mut draft.lower[channel], &mut draft.upper[channel]);
            match random.below(6) {
                0 => (*lower, *upper) = sizes.range(random),
                1 | 2 => {
                    let shift = random.between(*lower - *upper, *upper - *lower) / 8;
                    *lower = (*lower + shift).clamp(-GREATEST, GREATEST);
                    *upper = (*upper + shift).clamp(-GREATEST, GREATEST);
                }
                3 => *upper = *lower + (*upper - *lower) / 2,
                _ => (),
            }
        }
        if random.once_in(4) {
            draft.swept = random.below(draft.lower.len());
        }
        draft.centre = centre(random, (draft.lower[draft.swept], draft.upper[draft.swept]));
        draft
    }

    /// Something is wrong with it now, mostly.
    pub fn spoil(&mut self, random: &mut Random) {
        let channels = self.lower.len().min(self.upper.len());
        if channels == 0 {
            return;
        }
        let channel = random.below(channels);
        match random.below(8) {
            0 => _ = self.upper.pop(),
            1 => self.lower.push(0),
            2 => {
                // The wrong number of channels.
                let channels = random.one_of(&[0, 9, 10, 12]);
                let sizes = Sizes::random(random);
                *self = Self::of_channels(random, sizes, channels);
            }
            3 => self.lower[channel] = beyond(random),
            4 => self.upper[channel] = beyond(random),
            5 => std::mem::swap(&mut self.lower[channel], &mut self.upper[channel]),
            6 => self.swept = random.one_of(&[self.lower.len(), 8, 255, usize::MAX]),
            _ if random.once_in(2) => self.centre = beyond(random),
            _ => self.centre = Sizes::random(random).count(random),
        }
    }

    /// As a box in memory, with anything in the channels that it does not have.
    pub fn stored(&self, random: &mut Random) -> ChannelBox {
        let mut over = ChannelBox { channels: self.lower.len(), swept: self.swept, centre: self.centre, ..ChannelBox::BLANK };
        if random.once_in(2) {
            over.lower = [random.next() as i64; CHANNELS];
            over.upper = [random.next() as i64; CHANNELS];
        }
        over.lower.iter_mut().zip(&self.lower).for_each(|(place, &end)| *place = end);
        over.upper.iter_mut().zip(&self.upper).for_each(|(place, &end)| *place = end);
        if self.lower.len() != self.upper.len() {
            over.channels = wild(random, &[0, 9]);
        }
        over
    }
}
