//! A process at its index.

use std::ffi::c_int;
use std::io;
use std::os::fd::{AsFd, AsRawFd};
use std::path::Path;
use std::ptr;
use std::time::{Duration, Instant};

use crate::error::{io_result, LockError};
use crate::ffi::{self, RmeSeat, Timespec};
use crate::guard::Guard;
use crate::handle::{c_path, Handle, Interrupter, Messages};
use crate::reap::{Dead, Repair, Repairing};
use crate::status::{FileStatus, Found, IndexStatus};

/// Makes the file, for `procs` processes (1 to 64), `cap` messages (1 to 65,536, which nothing ever removes) of `width`
/// words (1 to 8), and `data_bytes` bytes of the caller's own, all 0. Its mode is 0600.
///
/// # Errors
///
/// [`AlreadyExists`](io::ErrorKind::AlreadyExists) where there is such a name, and nothing is changed;
/// [`InvalidInput`](io::ErrorKind::InvalidInput) where the sizes are out of range; and those of the system.
pub fn create(path: impl AsRef<Path>, procs: u64, cap: u64, width: u64, data_bytes: u64) -> io::Result<()> {
    create_as(path, procs, cap, width, data_bytes, 0o600, None)
}

/// The same, with this mode, which the umask does not change, and this group. Whoever may write the file can take part, and can
/// break the lock for all.
///
/// # Errors
///
/// Those of [`create`]; [`InvalidInput`](io::ErrorKind::InvalidInput) of a mode above 0o777, or one that is not the owner's to read
/// and write; [`PermissionDenied`](io::ErrorKind::PermissionDenied) of a group that this process may not give.
pub fn create_as(
    path: impl AsRef<Path>,
    procs: u64,
    cap: u64,
    width: u64,
    data_bytes: u64,
    mode: u32,
    group: Option<u32>,
) -> io::Result<()> {
    let path = c_path(path.as_ref())?;
    let group = group.unwrap_or(u32::MAX);
    // SAFETY: the path ends with a zero.
    io_result(unsafe { ffi::rme_create_as(path.as_ptr(), procs, cap, width, data_bytes, mode, group) })
}

/// This instant, as a time of CLOCK_MONOTONIC.
fn time_of(until: Instant) -> Timespec {
    let left = until.saturating_duration_since(Instant::now());
    let mut time = Timespec::default();
    // SAFETY: the time is written within its bounds.
    unsafe { ffi::clock_gettime(ffi::CLOCK_MONOTONIC, &mut time) };
    let nanoseconds = time.nanoseconds + i64::from(left.subsec_nanos());
    let seconds = i64::try_from(left.as_secs()).unwrap_or(i64::MAX).saturating_add(time.seconds);
    Timespec { seconds: seconds.saturating_add(nanoseconds / 1_000_000_000), nanoseconds: nanoseconds % 1_000_000_000 }
}

/// One living process at its index of a file. Dropping it gives the index back; where it is inside or in line then, this
/// counts as a crash.
pub struct Seat {
    pub(crate) handle: Handle,
}

/// What [`Seat::recover`] has found.
pub struct Recovery<'a> {
    /// Where an earlier process of this index stood.
    pub found: Found,
    /// After [`Found::Inside`]: this process is inside, and its owner has died.
    pub guard: Option<Guard<'a>>,
}

impl Seat {
    /// Takes the index.
    ///
    /// # Errors
    ///
    /// [`ResourceBusy`](io::ErrorKind::ResourceBusy) where a living process has it, or a reaper acts for it;
    /// [`InvalidInput`](io::ErrorKind::InvalidInput) where there is no such index; and those of the system.
    pub fn attach(path: impl AsRef<Path>, index: u64) -> io::Result<Seat> {
        Seat::attach_within(path, index, Duration::ZERO)
    }

    /// The same, and waits at most this long for a reaper that acts for the index.
    ///
    /// # Errors
    ///
    /// Those of [`attach`](Seat::attach); [`TimedOut`](io::ErrorKind::TimedOut) where the reaper is not done.
    pub fn attach_within(path: impl AsRef<Path>, index: u64, most: Duration) -> io::Result<Seat> {
        let milliseconds = u64::try_from(most.as_millis()).unwrap_or(u64::MAX);
        // SAFETY: the handle's room is a seat's, and the path ends with a zero.
        let open = |seat, path| unsafe { ffi::rme_attach_within(seat, path, index, milliseconds) };
        Ok(Seat { handle: Handle::open(path.as_ref(), open)? })
    }

    /// Takes the index in the file of an open descriptor, which stays the caller's: the file is opened anew, through /proc.
    ///
    /// # Errors
    ///
    /// Those of [`attach_within`](Seat::attach_within).
    pub fn attach_file(file: impl AsFd, index: u64, most: Duration) -> io::Result<Seat> {
        let milliseconds = u64::try_from(most.as_millis()).unwrap_or(u64::MAX);
        let number = file.as_fd().as_raw_fd();
        // SAFETY: the handle's room is a seat's.
        let open = |seat| unsafe { ffi::rme_attach_file(seat, number, index, milliseconds) };
        Ok(Seat { handle: Handle::open_by(open)? })
    }

    /// Gives the index back.
    ///
    /// # Errors
    ///
    /// [`ResourceBusy`](io::ErrorKind::ResourceBusy) where it was in line, or an earlier process of this index has left its
    /// place: this counts as a crash.
    pub fn detach(mut self) -> io::Result<()> {
        io_result(self.handle.detach())
    }

    /// Whether an earlier process of this index died, and nobody has released its place.
    pub fn crashed(&self) -> bool {
        // SAFETY: the room is a seat's.
        unsafe { ffi::rme_crashed(self.handle.shown()) }
    }

    /// Where a reaper found an earlier process of this index that had died.
    pub fn reaped(&self) -> Option<Found> {
        // SAFETY: as above.
        Found::of(unsafe { ffi::rme_reaped(self.handle.shown()) })
    }

    /// Acknowledges what [`reaped`](Seat::reaped) answers: from now on, and after the next attach, that is `None`.
    ///
    /// # Errors
    ///
    /// [`Busy`](LockError::Busy) in line.
    pub fn acknowledge(&mut self) -> Result<(), LockError> {
        // SAFETY: as above.
        match unsafe { ffi::rme_acknowledge(self.handle.seat()) } {
            0 => Ok(()),
            other => Err(LockError::of(other)),
        }
    }

    /// The pid of the living process that has this index, as that process sees itself.
    pub fn pid(&self, index: u64) -> Option<i64> {
        // SAFETY: as above.
        Some(unsafe { ffi::rme_pid(self.handle.shown(), index) }).filter(|pid| *pid > 0)
    }

    /// What ends a lock of this seat that waits, from another thread.
    pub fn interrupter(&self) -> Interrupter {
        self.handle.interrupter()
    }

    /// Waits for its turn and enters.
    ///
    /// # Errors
    ///
    /// [`NotRecoverable`](LockError::NotRecoverable), [`AlreadyInside`](LockError::AlreadyInside),
    /// [`NumbersSpent`](LockError::NumbersSpent), [`Interrupted`](LockError::Interrupted).
    pub fn lock(&mut self) -> Result<Guard<'_>, LockError> {
        // SAFETY: the room is a seat's.
        self.enter(|seat| unsafe { ffi::rme_lock(seat) })
    }

    /// The same, for at most `turns` readings of words that block it: it pauses between them, and later sleeps for at most a
    /// millisecond.
    ///
    /// # Errors
    ///
    /// Those of [`lock`](Seat::lock), and [`TimedOut`](LockError::TimedOut): it keeps its place in line. The next lock goes on
    /// there, and [`withdraw`](Seat::withdraw) gives the place up.
    pub fn lock_within(&mut self, turns: u64) -> Result<Guard<'_>, LockError> {
        // SAFETY: as above.
        self.enter(|seat| unsafe { ffi::rme_lock_within(seat, turns) })
    }

    /// The same, up to this instant.
    ///
    /// # Errors
    ///
    /// Those of [`lock_within`](Seat::lock_within).
    pub fn lock_until(&mut self, until: Instant) -> Result<Guard<'_>, LockError> {
        let time = time_of(until);
        // SAFETY: as above, and the time lives until the call is over.
        self.enter(|seat| unsafe { ffi::rme_lock_until(seat, &time) })
    }

    /// Enters where nobody is in the way, and waits for nobody.
    ///
    /// # Errors
    ///
    /// [`Blocked`](LockError::Blocked): not inside, and not in line. [`Busy`](LockError::Busy): in line since an earlier lock. And
    /// those of [`lock`](Seat::lock).
    pub fn try_lock(&mut self) -> Result<Guard<'_>, LockError> {
        // SAFETY: as above.
        self.enter(|seat| unsafe { ffi::rme_trylock(seat) })
    }

    /// A [`lock`](Seat::lock) that checks after `turns` blocked readings whether the process that blocks it lives, and releases a
    /// dead process's place, as [`reap`](crate::reap()) does.
    ///
    /// # Errors
    ///
    /// Those of [`lock`](Seat::lock), and [`Other`](LockError::Other).
    pub fn lock_reaping(&mut self, turns: u64, repair: impl FnMut(&mut Dead<'_>) -> Repair) -> Result<Guard<'_>, LockError> {
        self.reaping(turns, None, repair)
    }

    /// The same, up to this instant.
    ///
    /// # Errors
    ///
    /// Those of [`lock_reaping`](Seat::lock_reaping), and [`TimedOut`](LockError::TimedOut).
    pub fn lock_reaping_until(
        &mut self,
        turns: u64,
        until: Instant,
        repair: impl FnMut(&mut Dead<'_>) -> Repair,
    ) -> Result<Guard<'_>, LockError> {
        self.reaping(turns, Some(time_of(until)), repair)
    }

    fn reaping(
        &mut self,
        turns: u64,
        until: Option<Timespec>,
        repair: impl FnMut(&mut Dead<'_>) -> Repair,
    ) -> Result<Guard<'_>, LockError> {
        let mut repairing = Repairing::new(repair);
        let (call, context) = repairing.for_c();
        let time = until.as_ref().map_or(ptr::null(), ptr::from_ref);
        // SAFETY: the room is a seat's, and the time and the context live until the call is over.
        let error = unsafe { ffi::rme_lock_reaping_until(self.handle.seat(), turns, time, Some(call), context) };
        let entered = self.entered(error);
        repairing.end();
        entered
    }

    fn enter(&mut self, lock: impl FnOnce(*mut RmeSeat) -> c_int) -> Result<Guard<'_>, LockError> {
        let error = lock(self.handle.seat());
        self.entered(error)
    }

    fn entered(&mut self, error: c_int) -> Result<Guard<'_>, LockError> {
        match error {
            0 => Ok(Guard::new(self, false)),
            ffi::EOWNERDEAD => Ok(Guard::new(self, true)),
            other => Err(LockError::of(other)),
        }
    }

    /// After [`TimedOut`](LockError::TimedOut): the index that it last waited for, and whether its process lives.
    ///
    /// # Errors
    ///
    /// [`NotWaiting`](LockError::NotWaiting).
    pub fn blocker(&mut self) -> Result<(u64, bool), LockError> {
        let (mut index, mut alive) = (0, false);
        // SAFETY: the room is a seat's, and both answers are written within their bounds.
        waiting(unsafe { ffi::rme_blocker(self.handle.seat(), &mut index, &mut alive) })?;
        Ok((index, alive))
    }

    /// Gives up the place in line after [`TimedOut`](LockError::TimedOut).
    ///
    /// # Errors
    ///
    /// [`NotWaiting`](LockError::NotWaiting).
    pub fn withdraw(&mut self) -> Result<(), LockError> {
        // SAFETY: the room is a seat's.
        waiting(unsafe { ffi::rme_withdraw(self.handle.seat()) })
    }

    /// Finds where an earlier process of this index stood. It waits for nobody. After [`Found::Doorway`] and
    /// [`Found::Waiting`] this index still blocks others, until it has locked.
    ///
    /// # Errors
    ///
    /// [`AlreadyInside`](LockError::AlreadyInside); [`Busy`](LockError::Busy) in line.
    pub fn recover(&mut self) -> Result<Recovery<'_>, LockError> {
        let mut number = 0;
        // SAFETY: the room is a seat's, and the answer is written within its bounds.
        let error = unsafe { ffi::rme_recover(self.handle.seat(), &mut number) };
        match Found::of(number) {
            _ if error != 0 => Err(LockError::of(error)),
            Some(Found::Inside) => Ok(Recovery { found: Found::Inside, guard: Some(Guard::new(self, true)) }),
            Some(found) => Ok(Recovery { found, guard: None }),
            None => Err(LockError::Other(ffi::EINVAL)),
        }
    }

    /// The messages from this place on (the first is 0). It needs no lock.
    pub fn read_from(&self, place: u64) -> Messages<'_> {
        self.handle.read_from(place)
    }

    /// How the file stands.
    pub fn file_status(&self) -> io::Result<FileStatus> {
        self.handle.file_status()
    }

    /// How an index stands.
    pub fn index_status(&self, index: u64) -> io::Result<IndexStatus> {
        self.handle.index_status(index)
    }
}

fn waiting(error: c_int) -> Result<(), LockError> {
    match error {
        0 => Ok(()),
        ffi::EINVAL => Err(LockError::NotWaiting),
        other => Err(LockError::of(other)),
    }
}
