//! Sheets and their calls.
use crate::kind::Kind;
use crate::{ChannelBox, Line, Range, Refusal, Report, raw};
use std::marker::PhantomData;

/// A sheet, with the records that its calls work on: about 13 kilobytes, and none on the heap.
///
/// It holds a box and at most 64 lines of a formula. A refused call leaves both as they were.
#[derive(Clone, Debug)]
pub struct Sheet<K: Kind> {
    pub(crate) sheet: raw::Sheet,
    pub(crate) working: [raw::Record; raw::LINES],
    pub(crate) spare: [raw::Record; raw::LINES],
    kind: PhantomData<K>,
}

impl<K: Kind> Default for Sheet<K> {
    fn default() -> Sheet<K> {
        Sheet::blank()
    }
}

impl<K: Kind> Sheet<K> {
    /// A blank sheet: one channel from 0 to 0, and no line.
    #[must_use]
    pub fn blank() -> Sheet<K> {
        let over = raw::Box { channels: 1, ..raw::Box::default() };
        Sheet {
            sheet: raw::Sheet { over, held: 0, lines: [raw::Line::default(); raw::LINES] },
            working: [raw::Record::default(); raw::LINES],
            spare: [raw::Record::default(); raw::LINES],
            kind: PhantomData,
        }
    }

    /// How many lines are held.
    #[must_use]
    pub fn held(&self) -> usize {
        self.sheet.held
    }

    /// Gives the sheet a box, and empties it.
    ///
    /// # Errors
    /// 1, 2, 3, 4 and 5, for a box that is none.
    pub fn open(&mut self, over: &ChannelBox) -> Result<(), Refusal> {
        let (lower, upper) = over.ends();
        self.open_ends(lower, upper, over.raw().swept, over.raw().centre)
    }

    /// Gives the sheet the box of these lower and upper ends, and empties it.
    ///
    /// # Errors
    /// 1, also where the lists are of unequal length; 2, 3, 4 and 5.
    pub fn open_ends(&mut self, lower: &[i64], upper: &[i64], swept: usize, centre: i64) -> Result<(), Refusal> {
        // SAFETY: all pointers are of references to initialised memory of the lengths given, and the one that is written to is ours alone.
        let answer = unsafe {
            (K::calls().open)(&mut self.sheet, lower.as_ptr(), lower.len(), upper.as_ptr(), upper.len(), swept, centre)
        };
        answer.taken().map(drop)
    }

    /// Appends a line, and answers its number.
    ///
    /// # Errors
    /// 7 where 64 lines are held; 2, 3 and 8 for what the line names; 9 and 10 where it has no range over the box.
    pub fn add(&mut self, line: Line) -> Result<usize, Refusal> {
        let line = raw::Line::from(line);
        // SAFETY: as in `open_ends`; sheet and working lines are different fields.
        let answer = unsafe { (K::calls().add)(&mut self.sheet, self.working.as_mut_ptr(), self.working.len(), &line) };
        answer.taken().map(|answer| answer.number)
    }

    /// Removes the last line.
    ///
    /// # Errors
    /// 11 where there is none.
    pub fn strike(&mut self) -> Result<(), Refusal> {
        // SAFETY: as in `open_ends`.
        unsafe { (K::calls().strike)(&mut self.sheet) }.taken().map(drop)
    }

    /// Gives a channel a new range and, if it is the swept one, a new centre, and keeps all lines. (For another channel the centre is not
    /// looked at.)
    ///
    /// # Errors
    /// 2 to 5 for the range and the centre; 9 and 10 at the first line that has no range over the new box.
    pub fn move_channel(&mut self, channel: usize, range: Range, centre: i64) -> Result<(), Refusal> {
        // SAFETY: as in `open_ends`; sheet, working lines and spare lines are different fields.
        let answer = unsafe {
            (K::calls().move_channel)(
                &mut self.sheet,
                self.working.as_mut_ptr(),
                self.working.len(),
                self.spare.as_mut_ptr(),
                self.spare.len(),
                channel,
                range.lower,
                range.upper,
                centre,
            )
        };
        answer.taken().map(drop)
    }

    /// Adds all lines of a formula in bytes to a sheet that holds none.
    ///
    /// # Errors
    /// 12 where lines are held; 13 to 16 for the bytes; what `add` refuses of a line.
    pub fn read(&mut self, formula: &[u8]) -> Result<(), Refusal> {
        // SAFETY: as in `add`.
        let answer = unsafe {
            (K::calls().read)(
                &mut self.sheet,
                self.working.as_mut_ptr(),
                self.working.len(),
                formula.as_ptr(),
                formula.len(),
            )
        };
        answer.taken().map(drop)
    }

    /// Writes the formula of the held lines, and answers how many bytes it takes: [`crate::FORMULA_BYTES`] at most.
    ///
    /// # Errors
    /// 11 where no line is held; 17, at the bytes that are needed.
    pub fn write(&self, out: &mut [u8]) -> Result<usize, Refusal> {
        // SAFETY: as in `open_ends`.
        let answer = unsafe { (K::calls().write)(&self.sheet, out.as_mut_ptr(), out.len()) };
        answer.taken().map(|answer| answer.number)
    }

    /// The range of a held line over the box.
    ///
    /// # Errors
    /// 11 for a line that is not held.
    pub fn report(&self, line: usize) -> Result<Report, Refusal> {
        // SAFETY: as in `open_ends`.
        let answer = unsafe { (K::calls().report)(&self.sheet, self.working.as_ptr(), self.working.len(), line) };
        answer.reported()
    }
}
