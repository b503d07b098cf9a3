//! A lock that is held.

use std::sync::atomic::{AtomicU8, Ordering};
use std::thread;

use crate::error::{LockError, MailError};
use crate::ffi::{self, RmeSeat};
use crate::handle::Messages;
use crate::seat::Seat;

/// A lock that is held. Dropping it leaves the lock, except in a thread that panics: what it did inside may be half done then, so it
/// stays inside until the [`Seat`] is dropped, and that counts as a death inside, which the next attach or a reaper reports.
#[must_use = "a guard that is dropped leaves the lock"]
pub struct Guard<'a> {
    seat: &'a mut Seat,
    owner_died: bool,
    panicked: bool,
}

/// Whether an append has stored its message, or found it there.
#[derive(Clone, Copy, Debug, PartialEq, Eq)]
pub enum Appended {
    /// The message is stored.
    Stored,
    /// The message with this number was there already.
    Already,
}

impl<'a> Guard<'a> {
    pub(crate) fn new(seat: &'a mut Seat, owner_died: bool) -> Guard<'a> {
        Guard { seat, owner_died, panicked: thread::panicking() }
    }

    fn raw(&mut self) -> *mut RmeSeat {
        self.seat.handle.seat()
    }

    /// Whether an earlier process of this index died inside. Then what the lock guards may be half done: end it, or undo it,
    /// and call [`mended`](Guard::mended). A guard that is dropped without it ruins the lock for all, as with POSIX.
    pub fn owner_died(&self) -> bool {
        self.owner_died
    }

    /// After [`owner_died`](Guard::owner_died): finishes the append that the dead process left half done, and marks the lock as
    /// repaired.
    ///
    /// # Errors
    ///
    /// [`NothingToMend`](LockError::NothingToMend); [`NotRecoverable`](LockError::NotRecoverable) where the lock is ruined.
    pub fn mended(&mut self) -> Result<(), LockError> {
        // SAFETY: the room is a seat's.
        match unsafe { ffi::rme_consistent(self.raw()) } {
            0 => Ok(()),
            ffi::EINVAL => Err(LockError::NothingToMend),
            other => Err(LockError::of(other)),
        }
    }

    /// Stores a message as this process's next, of as many words as the file's width. The numbers of a process go 1, 2, 3 ..;
    /// a number that was stored before is answered [`Already`](Appended::Already), so after a crash the same append is safe.
    ///
    /// # Errors
    ///
    /// [`Invalid`](MailError::Invalid), [`Full`](MailError::Full), [`Closed`](MailError::Closed),
    /// [`OwnerDied`](MailError::OwnerDied).
    pub fn append(&mut self, number: u64, value: &[u64]) -> Result<Appended, MailError> {
        if value.len() != self.seat.handle.width() {
            return Err(MailError::Invalid);
        }
        // SAFETY: the value has as many words as the file's width.
        match unsafe { ffi::rme_append(self.raw(), number, value.as_ptr()) } {
            0 => Ok(Appended::Stored),
            ffi::EALREADY => Ok(Appended::Already),
            other => Err(MailError::of(other)),
        }
    }

    /// Closes the mailbox: nothing is appended any more. Whether it was closed before is no error.
    ///
    /// # Errors
    ///
    /// [`OwnerDied`](MailError::OwnerDied).
    pub fn close(&mut self) -> Result<(), MailError> {
        // SAFETY: the room is a seat's.
        match unsafe { ffi::rme_close(self.raw()) } {
            0 | ffi::EALREADY => Ok(()),
            other => Err(MailError::of(other)),
        }
    }

    /// Reads word `i` (0 to 3) of the board.
    ///
    /// # Errors
    ///
    /// [`Invalid`](MailError::Invalid) where there is no such word.
    pub fn get(&mut self, i: u64) -> Result<u64, MailError> {
        let mut word = 0;
        // SAFETY: the room is a seat's, and the word is written within its bounds.
        match unsafe { ffi::rme_get(self.raw(), i, &mut word) } {
            0 => Ok(word),
            other => Err(MailError::of(other)),
        }
    }

    /// Writes word `i` (0 to 3) of the board.
    ///
    /// # Errors
    ///
    /// [`Invalid`](MailError::Invalid) where there is no such word.
    pub fn put(&mut self, i: u64, word: u64) -> Result<(), MailError> {
        // SAFETY: the room is a seat's.
        match unsafe { ffi::rme_put(self.raw(), i, word) } {
            0 => Ok(()),
            other => Err(MailError::of(other)),
        }
    }

    /// The caller's own data in the file, which the lock guards.
    pub fn data(&self) -> Data<'_> {
        // SAFETY: the seat outlives the answer.
        unsafe { Data::of(self.seat.handle.shown()) }
    }

    /// The messages from this place on.
    pub fn read_from(&self, place: u64) -> Messages<'_> {
        self.seat.read_from(place)
    }

    /// Leaves, and says what went wrong. Where the owner had died and was not [`mended`](Guard::mended), this ruins the lock.
    ///
    /// # Errors
    ///
    /// [`Other`](LockError::Other).
    pub fn unlock(self) -> Result<(), LockError> {
        let mut held = std::mem::ManuallyDrop::new(self);
        held.leave()
    }

    fn leave(&mut self) -> Result<(), LockError> {
        // SAFETY: the room is a seat's.
        match unsafe { ffi::rme_unlock(self.raw()) } {
            0 => Ok(()),
            other => Err(LockError::of(other)),
        }
    }
}

impl Drop for Guard<'_> {
    fn drop(&mut self) {
        if self.panicked || !thread::panicking() {
            let _ = self.leave();
        }
    }
}

/// The caller's own data, in memory that processes share.
#[derive(Clone, Copy)]
pub struct Data<'a> {
    bytes: &'a [AtomicU8],
}

impl<'a> Data<'a> {
    /// # Safety
    ///
    /// The seat is attached for as long as the answer lives, and not only looks at its file.
    pub(crate) unsafe fn of(seat: *const RmeSeat) -> Data<'a> {
        let mut length = 0;
        let at = ffi::rme_data(seat, &mut length);
        let bytes: &[AtomicU8] = if at.is_null() { &[] } else { std::slice::from_raw_parts(at.cast(), length) };
        Data { bytes }
    }

    pub(crate) fn new(bytes: &'a [AtomicU8]) -> Data<'a> {
        Data { bytes }
    }

    /// The bytes themselves. They begin at a multiple of 64.
    pub fn bytes(&self) -> &'a [AtomicU8] {
        self.bytes
    }

    /// Reads the bytes from this one on.
    ///
    /// # Panics
    ///
    /// Where the data end before.
    pub fn read(&self, from: usize, into: &mut [u8]) {
        let shared = &self.bytes[from..][..into.len()];
        for (byte, shared) in into.iter_mut().zip(shared) {
            *byte = shared.load(Ordering::Relaxed);
        }
    }

    /// Writes the bytes from this one on.
    ///
    /// # Panics
    ///
    /// Where the data end before.
    pub fn write(&self, from: usize, bytes: &[u8]) {
        for (byte, shared) in bytes.iter().zip(&self.bytes[from..][..bytes.len()]) {
            shared.store(*byte, Ordering::Relaxed);
        }
    }
}
