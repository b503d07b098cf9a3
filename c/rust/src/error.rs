//! Why a call was refused.

use std::error::Error;
use std::fmt;
use std::io;

use crate::ffi;

/// Why a lock was not entered.
#[derive(Clone, Copy, Debug, PartialEq, Eq)]
#[non_exhaustive]
pub enum LockError {
    /// The lock is ruined: after a death inside, somebody left without [`mended`](crate::Guard::mended).
    NotRecoverable,
    /// This process is inside already.
    AlreadyInside,
    /// All of its readings were blocked, or its time has passed. The seat keeps its place: the next lock goes on waiting there.
    TimedOut,
    /// An [`Interrupter`](crate::Interrupter) has ended the wait. The seat keeps its place.
    Interrupted,
    /// Somebody is in the way of a [`try_lock`](crate::Seat::try_lock), which is not in line.
    Blocked,
    /// Another call of this seat is under way: a lock that has timed out, which has to go on or be withdrawn.
    Busy,
    /// All numbers of this lock are spent.
    NumbersSpent,
    /// It does not wait in line.
    NotWaiting,
    /// The owner had not died, or the lock is repaired already.
    NothingToMend,
    /// The error number of another cause.
    Other(i32),
}

/// Why a message was not stored, a board word not read or written, or the mailbox not closed.
#[derive(Clone, Copy, Debug, PartialEq, Eq)]
#[non_exhaustive]
pub enum MailError {
    /// Neither the sender's next number nor an earlier one, a value of another width, or no such board word.
    Invalid,
    /// The mailbox has no room left.
    Full,
    /// The mailbox is closed.
    Closed,
    /// The owner had died: [`mended`](crate::Guard::mended) comes first.
    OwnerDied,
    /// The error number of another cause.
    Other(i32),
}

impl LockError {
    pub(crate) fn of(number: i32) -> LockError {
        match number {
            ffi::ENOTRECOVERABLE => LockError::NotRecoverable,
            ffi::EDEADLK => LockError::AlreadyInside,
            ffi::ETIMEDOUT => LockError::TimedOut,
            ffi::EBUSY => LockError::Busy,
            ffi::EOVERFLOW => LockError::NumbersSpent,
            ffi::EINTR => LockError::Interrupted,
            ffi::EAGAIN => LockError::Blocked,
            other => LockError::Other(other),
        }
    }
}

impl MailError {
    pub(crate) fn of(number: i32) -> MailError {
        match number {
            ffi::EINVAL => MailError::Invalid,
            ffi::ENOSPC => MailError::Full,
            ffi::EPIPE => MailError::Closed,
            ffi::EOWNERDEAD => MailError::OwnerDied,
            other => MailError::Other(other),
        }
    }
}

impl fmt::Display for LockError {
    fn fmt(&self, out: &mut fmt::Formatter<'_>) -> fmt::Result {
        match self {
            LockError::NotRecoverable => out.write_str("the lock is not recoverable"),
            LockError::AlreadyInside => out.write_str("this process is inside already"),
            LockError::TimedOut => out.write_str("timed out; the place in the line is kept"),
            LockError::Interrupted => out.write_str("interrupted; the place in the line is kept"),
            LockError::Blocked => out.write_str("somebody is in the way"),
            LockError::Busy => out.write_str("another call of this seat is under way"),
            LockError::NumbersSpent => out.write_str("the numbers of this lock are spent"),
            LockError::NotWaiting => out.write_str("this process does not wait in line"),
            LockError::NothingToMend => out.write_str("there is nothing to mend"),
            LockError::Other(number) => io::Error::from_raw_os_error(*number).fmt(out),
        }
    }
}

impl fmt::Display for MailError {
    fn fmt(&self, out: &mut fmt::Formatter<'_>) -> fmt::Result {
        match self {
            MailError::Invalid => out.write_str("not the next number, another width, or no such word"),
            MailError::Full => out.write_str("the mailbox is full"),
            MailError::Closed => out.write_str("the mailbox is closed"),
            MailError::OwnerDied => out.write_str("the owner died, and what it left is not mended"),
            MailError::Other(number) => io::Error::from_raw_os_error(*number).fmt(out),
        }
    }
}

impl Error for LockError {}
impl Error for MailError {}

/// 0 is fine, any other number an error of the system.
pub(crate) fn io_result(number: i32) -> io::Result<()> {
    if number == 0 {
        Ok(())
    } else {
        Err(io::Error::from_raw_os_error(number))
    }
}
