//! The calls of rme.h, as far as this crate takes them.

use std::ffi::{c_char, c_int, c_void};

pub const EINTR: c_int = 4;
pub const EAGAIN: c_int = 11;
pub const EINVAL: c_int = 22;
pub const EBUSY: c_int = 16;
pub const ENOSPC: c_int = 28;
pub const EPIPE: c_int = 32;
pub const EDEADLK: c_int = 35;
pub const EOVERFLOW: c_int = 75;
pub const ETIMEDOUT: c_int = 110;
pub const EALREADY: c_int = 114;
pub const EOWNERDEAD: c_int = 130;
pub const ENOTRECOVERABLE: c_int = 131;

/// `struct rme_seat`, of which only C knows the fields.
#[repr(C)]
pub struct RmeSeat {
    _opaque: [u8; 0],
}

#[repr(C)]
#[derive(Clone, Copy, Default)]
pub struct RmeMessage {
    pub sender: u64,
    pub number: u64,
    pub value: [u64; 8],
}

#[repr(C)]
#[derive(Clone, Copy, Default)]
pub struct RmeFile {
    pub procs: u64,
    pub cap: u64,
    pub width: u64,
    pub limit: u64,
    pub words: u64,
    pub data_bytes: u64,
    pub count: u64,
    pub closed: u64,
    pub ruined: u64,
}

#[repr(C)]
#[derive(Clone, Copy, Default)]
pub struct RmeIndex {
    pub choosing: u64,
    pub number: u64,
    pub inside: u64,
    pub found: c_int,
    pub life: c_int,
    pub reaped: c_int,
    pub pid: i64,
    pub entries: u64,
    pub waits: u64,
}

/// `struct timespec` of Linux on x86-64.
#[repr(C)]
#[derive(Clone, Copy, Default)]
pub struct Timespec {
    pub seconds: i64,
    pub nanoseconds: i64,
}

pub const CLOCK_MONOTONIC: c_int = 1;

pub type RmeRepair = extern "C" fn(*mut RmeSeat, u64, *mut c_void, usize, *mut c_void) -> c_int;

extern "C" {
    pub fn clock_gettime(clock: c_int, time: *mut Timespec) -> c_int;
    pub fn rme_create_as(
        path: *const c_char,
        procs: u64,
        cap: u64,
        width: u64,
        data_bytes: u64,
        mode: u32,
        group: u32,
    ) -> c_int;
    pub fn rme_attach_file(seat: *mut RmeSeat, file: c_int, index: u64, milliseconds: u64) -> c_int;
    pub fn rme_attach_within(seat: *mut RmeSeat, path: *const c_char, index: u64, milliseconds: u64) -> c_int;
    pub fn rme_inspect(seat: *mut RmeSeat, path: *const c_char) -> c_int;
    pub fn rme_detach(seat: *mut RmeSeat) -> c_int;
    pub fn rme_lock(seat: *mut RmeSeat) -> c_int;
    pub fn rme_lock_within(seat: *mut RmeSeat, turns: u64) -> c_int;
    pub fn rme_lock_until(seat: *mut RmeSeat, until: *const Timespec) -> c_int;
    pub fn rme_trylock(seat: *mut RmeSeat) -> c_int;
    pub fn rme_interrupt(seat: *mut RmeSeat) -> c_int;
    pub fn rme_lock_reaping_until(
        seat: *mut RmeSeat,
        turns: u64,
        until: *const Timespec,
        repair: Option<RmeRepair>,
        context: *mut c_void,
    ) -> c_int;
    pub fn rme_blocker(seat: *mut RmeSeat, index: *mut u64, alive: *mut bool) -> c_int;
    pub fn rme_withdraw(seat: *mut RmeSeat) -> c_int;
    pub fn rme_unlock(seat: *mut RmeSeat) -> c_int;
    pub fn rme_consistent(seat: *mut RmeSeat) -> c_int;
    pub fn rme_recover(seat: *mut RmeSeat, found: *mut c_int) -> c_int;
    pub fn rme_append(seat: *mut RmeSeat, number: u64, value: *const u64) -> c_int;
    pub fn rme_close(seat: *mut RmeSeat) -> c_int;
    pub fn rme_get(seat: *mut RmeSeat, i: u64, word: *mut u64) -> c_int;
    pub fn rme_put(seat: *mut RmeSeat, i: u64, word: u64) -> c_int;
    pub fn rme_read_from(seat: *const RmeSeat, place: u64, messages: *mut RmeMessage, room: u64) -> u64;
    pub fn rme_data(seat: *const RmeSeat, bytes: *mut usize) -> *mut c_void;
    pub fn rme_reap(path: *const c_char, index: u64, repair: Option<RmeRepair>, context: *mut c_void) -> c_int;
    pub fn rme_reap_all(path: *const c_char, repair: Option<RmeRepair>, context: *mut c_void, reaped: *mut u64) -> c_int;
    pub fn rme_crashed(seat: *const RmeSeat) -> bool;
    pub fn rme_reaped(seat: *const RmeSeat) -> c_int;
    pub fn rme_acknowledge(seat: *mut RmeSeat) -> c_int;
    pub fn rme_pid(seat: *const RmeSeat, index: u64) -> i64;
    pub fn rme_file_status(seat: *const RmeSeat, status: *mut RmeFile) -> c_int;
    pub fn rme_index_status(seat: *const RmeSeat, index: u64, status: *mut RmeIndex) -> c_int;
    pub fn rme_seat_size() -> usize;
    pub fn rme_version() -> *const c_char;
}
