//! The functions of the header for one kind, as a table: so that one program can call two libraries alike.

use crate::memory::{Answer, ChannelBox, Line, Record, Sheet};

#[derive(Clone, Copy)]
pub struct Calls {
    pub open: unsafe extern "C" fn(*mut Sheet, *const i64, usize, *const i64, usize, usize, i64) -> Answer,
    pub add: unsafe extern "C" fn(*mut Sheet, *mut Record, usize, *const Line) -> Answer,
    pub strike: unsafe extern "C" fn(*mut Sheet) -> Answer,
    pub move_channel: unsafe extern "C" fn(*mut Sheet, *mut Record, usize, *mut Record, usize, usize, i64, i64, i64) -> Answer,
    pub read: unsafe extern "C" fn(*mut Sheet, *mut Record, usize, *const u8, usize) -> Answer,
    pub write: unsafe extern "C" fn(*const Sheet, *mut u8, usize) -> Answer,
    pub report: unsafe extern "C" fn(*const Sheet, *const Record, usize, usize) -> Answer,
    pub windows: unsafe extern "C" fn(*const u8, usize, usize, *const ChannelBox, usize, *mut Answer, usize) -> usize,
}
