//! Room for a seat of C, that stays where it is, and what can be read of any seat.

use std::cell::UnsafeCell;
use std::ffi::{c_char, c_int, CString};
use std::io;
use std::marker::PhantomData;
use std::os::unix::ffi::OsStrExt;
use std::path::Path;
use std::sync::{Arc, Mutex, PoisonError};

use crate::error::{io_result, LockError};
use crate::ffi::{self, RmeFile, RmeIndex, RmeMessage, RmeSeat};
use crate::status::{FileStatus, IndexStatus};

#[derive(Clone, Copy)]
#[repr(align(64))]
struct Line {
    _bytes: [u8; 64],
}

/// The room of a seat, which stays where it is, and whether the seat is attached.
struct Room {
    lines: UnsafeCell<Box<[Line]>>,
    attached: Mutex<bool>,
}

// SAFETY: one handle alone uses the seat, and beside it interrupters, by the one call that C allows while another is under way. A seat
// that is detached is used no more: both hold the mutex.
unsafe impl Send for Room {}
unsafe impl Sync for Room {}

impl Room {
    fn seat(&self) -> *mut RmeSeat {
        // SAFETY: the box itself is never replaced, and its lines are C's.
        unsafe { (*self.lines.get()).as_mut_ptr().cast() }
    }
}

/// Ends a lock of a [`Seat`](crate::Seat) that waits, from another thread.
#[derive(Clone)]
pub struct Interrupter {
    room: Arc<Room>,
}

impl Interrupter {
    /// The lock that waits answers [`Interrupted`](LockError::Interrupted), and keeps its place in line. Where none waits, the next
    /// that would wait answers so.
    ///
    /// # Errors
    ///
    /// [`Other`](LockError::Other) where the seat is dropped.
    pub fn interrupt(&self) -> Result<(), LockError> {
        let attached = self.room.attached.lock().unwrap_or_else(PoisonError::into_inner);
        // SAFETY: the seat is attached, and is not detached before the mutex is left.
        match attached.then(|| unsafe { ffi::rme_interrupt(self.room.seat()) }) {
            Some(0) => Ok(()),
            answer => Err(LockError::of(answer.unwrap_or(ffi::EINVAL))),
        }
    }
}

/// A seat of C that is attached, or that looks at a file. It may be sent to another thread, but not shared.
pub(crate) struct Handle {
    room: Arc<Room>,
    width: usize,
    _not_shared: PhantomData<*mut ()>,
}

// SAFETY: no call of librme is bound to the thread that attached, and the lease is the open file's.
unsafe impl Send for Handle {}

impl Handle {
    /// Has C open the file into room that is all zeros, and so not attached.
    pub(crate) fn open(path: &Path, open: impl FnOnce(*mut RmeSeat, *const c_char) -> c_int) -> io::Result<Handle> {
        let path = c_path(path)?;
        Handle::open_by(|seat| open(seat, path.as_ptr()))
    }

    pub(crate) fn open_by(open: impl FnOnce(*mut RmeSeat) -> c_int) -> io::Result<Handle> {
        // SAFETY: rme_seat_size has no premise.
        let lines = unsafe { ffi::rme_seat_size() }.div_ceil(64);
        let lines = UnsafeCell::new(vec![Line { _bytes: [0; 64] }; lines].into_boxed_slice());
        let room = Arc::new(Room { lines, attached: Mutex::new(true) });
        let mut handle = Handle { room, width: 0, _not_shared: PhantomData };
        io_result(open(handle.seat()))?;
        handle.width = handle.file_status()?.width as usize;
        Ok(handle)
    }

    pub(crate) fn seat(&mut self) -> *mut RmeSeat {
        self.room.seat()
    }

    pub(crate) fn shown(&self) -> *const RmeSeat {
        self.room.seat()
    }

    pub(crate) fn interrupter(&self) -> Interrupter {
        Interrupter { room: self.room.clone() }
    }

    pub(crate) fn width(&self) -> usize {
        self.width
    }

    pub(crate) fn file_status(&self) -> io::Result<FileStatus> {
        let mut status = RmeFile::default();
        // SAFETY: the room is a seat's, and `status` is written within its bounds.
        io_result(unsafe { ffi::rme_file_status(self.shown(), &mut status) })?;
        Ok(FileStatus::of(&status))
    }

    pub(crate) fn index_status(&self, index: u64) -> io::Result<IndexStatus> {
        let mut status = RmeIndex::default();
        // SAFETY: as above.
        io_result(unsafe { ffi::rme_index_status(self.shown(), index, &mut status) })?;
        Ok(IndexStatus::of(&status))
    }

    pub(crate) fn read_from(&self, place: u64) -> Messages<'_> {
        Messages { handle: self, place, room: [RmeMessage::default(); ROOM], next: 0, end: 0 }
    }

    /// Closes the file; the number of an error says that the process was inside or in line.
    pub(crate) fn detach(&mut self) -> c_int {
        let mut attached = self.room.attached.lock().unwrap_or_else(PoisonError::into_inner);
        *attached = false;
        // SAFETY: the room is a seat's; a second detach finds it not attached.
        unsafe { ffi::rme_detach(self.room.seat()) }
    }
}

impl Drop for Handle {
    fn drop(&mut self) {
        self.detach();
    }
}

pub(crate) fn c_path(path: &Path) -> io::Result<CString> {
    Ok(CString::new(path.as_os_str().as_bytes())?)
}

/// A message of the mailbox.
#[derive(Clone, Copy, Debug, PartialEq, Eq, Hash)]
pub struct Message {
    /// Its place in the mailbox: the first is 0.
    pub place: u64,
    /// The index of the process that sent it.
    pub sender: u64,
    /// Its number among that sender's: the first is 1.
    pub number: u64,
    value: [u64; 8],
    width: usize,
}

impl Message {
    /// Its words, as many as the width of the file says.
    pub fn value(&self) -> &[u64] {
        &self.value[..self.width]
    }
}

const ROOM: usize = 64;

/// The messages of a mailbox from a place on, as they stand while it is read.
pub struct Messages<'a> {
    handle: &'a Handle,
    place: u64,
    room: [RmeMessage; ROOM],
    next: usize,
    end: usize,
}

impl Iterator for Messages<'_> {
    type Item = Message;

    fn next(&mut self) -> Option<Message> {
        if self.next == self.end {
            // SAFETY: the room has place for as many messages as are asked for.
            let read = unsafe { ffi::rme_read_from(self.handle.shown(), self.place, self.room.as_mut_ptr(), ROOM as u64) };
            (self.next, self.end) = (0, read as usize);
        }
        let read = self.room[..self.end].get(self.next)?;
        let message = Message {
            place: self.place,
            sender: read.sender,
            number: read.number,
            value: read.value,
            width: self.handle.width,
        };
        self.next += 1;
        self.place += 1;
        Some(message)
    }
}
