//! The calls of rme_log.h, as far as this crate takes them.

use std::ffi::{c_char, c_int, c_void};

use crate::ffi::RmeMessage;

pub const ENODATA: c_int = 61;

/// `struct rme_cursor`.
#[repr(C)]
#[derive(Clone, Copy, Default)]
pub struct RmeCursor {
    pub segment: u64,
    pub place: u64,
}

/// `struct rme_log_state`.
#[repr(C)]
pub struct RmeLogState {
    pub procs: u64,
    pub cap: u64,
    pub width: u64,
    pub first: u64,
    pub last: u64,
    pub messages: u64,
    pub dropped: u64,
    pub numbers: [u64; 64],
}

extern "C" {
    pub fn rme_log_create(folder: *const c_char, procs: u64, cap: u64, width: u64) -> c_int;
    pub fn rme_log_open(log: *mut c_void, folder: *const c_char, index: u64, milliseconds: u64) -> c_int;
    pub fn rme_log_append(log: *mut c_void, number: u64, value: *const u64) -> c_int;
    pub fn rme_log_next(log: *mut c_void, number: *mut u64) -> c_int;
    pub fn rme_log_close(log: *mut c_void) -> c_int;
    pub fn rme_log_reader_open(reader: *mut c_void, folder: *const c_char, name: *const c_char) -> c_int;
    pub fn rme_log_read(reader: *mut c_void, messages: *mut RmeMessage, room: u64, count: *mut u64) -> c_int;
    pub fn rme_log_seek(reader: *mut c_void, cursor: RmeCursor) -> c_int;
    pub fn rme_log_seek_end(reader: *mut c_void) -> c_int;
    pub fn rme_log_keep(reader: *mut c_void) -> c_int;
    pub fn rme_log_wait(reader: *mut c_void, milliseconds: u64) -> c_int;
    pub fn rme_log_event(reader: *mut c_void, file: *mut c_int) -> c_int;
    pub fn rme_log_reader_close(reader: *mut c_void) -> c_int;
    pub fn rme_log_drop(folder: *const c_char, before: u64, first: *mut u64) -> c_int;
    pub fn rme_log_forget(folder: *const c_char, name: *const c_char) -> c_int;
    pub fn rme_log_status(folder: *const c_char, state: *mut RmeLogState) -> c_int;
    pub fn rme_log_size() -> usize;
    pub fn rme_log_reader_size() -> usize;
}
