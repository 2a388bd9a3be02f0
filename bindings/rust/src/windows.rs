//! Windows: a formula over box after box.
use crate::kind::Kind;
use crate::{ChannelBox, Refusal, Report, raw};

/// What a window answers. A new one is the report of middle 0 and margin 0.
#[derive(Clone, Copy, Debug, Default, PartialEq, Eq)]
#[repr(transparent)]
pub struct Answer {
    raw: raw::Answer,
}

impl Answer {
    /// The report, or why there is none.
    ///
    /// # Errors
    /// What opening the box, reading the formula or reporting its line refuses.
    pub fn report(&self) -> Result<Report, Refusal> {
        self.raw.reported()
    }
}

/// Reports a line of a formula over each box, with no sheet and nothing else held from one box to the next. Works on as many windows as there
/// are boxes and answers, and returns how many that is.
pub fn windows<K: Kind>(formula: &[u8], line: usize, boxes: &[ChannelBox], answers: &mut [Answer]) -> usize {
    // SAFETY: all pointers are of references to initialised memory of the lengths given; `ChannelBox` and `Answer` are transparent, so that
    // slices of them are arrays of what C has.
    unsafe {
        (K::calls().windows)(
            formula.as_ptr(),
            formula.len(),
            line,
            boxes.as_ptr().cast(),
            boxes.len(),
            answers.as_mut_ptr().cast(),
            answers.len(),
        )
    }
}

/// Reports a line of a formula over a box.
///
/// # Errors
/// What opening the box, reading the formula or reporting its line refuses.
pub fn window<K: Kind>(formula: &[u8], line: usize, over: &ChannelBox) -> Result<Report, Refusal> {
    let mut answers = [Answer::default()];
    windows::<K>(formula, line, std::slice::from_ref(over), &mut answers);
    answers[0].report()
}
