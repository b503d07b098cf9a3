//! Recovery on behalf of the dead.

use std::any::Any;
use std::ffi::{c_int, c_void};
use std::io;
use std::marker::PhantomData;
use std::panic::{self, AssertUnwindSafe};
use std::path::Path;
use std::ptr;
use std::sync::atomic::AtomicU8;

use crate::error::{io_result, MailError};
use crate::ffi::{self, RmeRepair, RmeSeat};
use crate::guard::Data;
use crate::handle::c_path;

/// The result of a repair of the data that the lock guards, after a process died inside.
#[derive(Clone, Copy, Debug, PartialEq, Eq)]
#[must_use]
pub enum Repair {
    /// They are repaired.
    Done,
    /// They are lost, and the lock is ruined for all.
    Lost,
    /// They are not repaired now: the place is left to the next reaper, and the reaping answers
    /// [`Interrupted`](io::ErrorKind::Interrupted).
    Later,
}

/// A process that died inside, for which a repair acts, inside. A repair may be killed itself and called again by the next
/// reaper, so it must be idempotent.
pub struct Dead<'a> {
    seat: *mut RmeSeat,
    index: u64,
    data: Data<'a>,
}

impl Dead<'_> {
    /// Its index.
    pub fn index(&self) -> u64 {
        self.index
    }

    /// The caller's own data in the file.
    pub fn data(&self) -> Data<'_> {
        self.data
    }

    /// Reads word `i` (0 to 3) of the board.
    ///
    /// # Errors
    ///
    /// [`Invalid`](MailError::Invalid) where there is no such word.
    pub fn get(&mut self, i: u64) -> Result<u64, MailError> {
        let mut word = 0;
        // SAFETY: C has handed the seat to the repair under way, and the word is written within its bounds.
        match unsafe { ffi::rme_get(self.seat, i, &mut word) } {
            0 => Ok(word),
            other => Err(MailError::of(other)),
        }
    }

    /// Writes word `i` (0 to 3) of the board.
    ///
    /// # Errors
    ///
    /// [`Invalid`](MailError::Invalid) where there is no such word.
    pub fn put(&mut self, i: u64, word: u64) -> Result<(), MailError> {
        // SAFETY: as above.
        match unsafe { ffi::rme_put(self.seat, i, word) } {
            0 => Ok(()),
            other => Err(MailError::of(other)),
        }
    }
}

/// Releases the place of a process that died and is not started again. Where it died inside, `repair`
/// is called, the mailbox is repaired, and the lock is left; else its place in line is given up. It waits for nobody. A reaper that
/// is killed leaves the place to the next. A `repair` that panics ruins the lock, as one that answers [`Repair::Lost`].
///
/// # Errors
///
/// Of [`raw_os_error`](io::Error::raw_os_error) ESRCH where nobody died here, EBUSY where a living process has the index or
/// another reaper acts for it, ENOTRECOVERABLE where its place is released but the lock is ruined; and those of an attach.
pub fn reap(path: impl AsRef<Path>, index: u64, repair: impl FnMut(&mut Dead<'_>) -> Repair) -> io::Result<()> {
    let path = c_path(path.as_ref())?;
    let mut repairing = Repairing::new(repair);
    let (call, context) = repairing.for_c();
    // SAFETY: the path ends with a zero, and the context lives until the call is over.
    let error = unsafe { ffi::rme_reap(path.as_ptr(), index, Some(call), context) };
    repairing.end();
    io_result(error)
}

/// The same for each index. Answers how many places were given up.
///
/// # Errors
///
/// The first that an index had, but for ESRCH and EBUSY; the others are reaped all the same.
pub fn reap_all(path: impl AsRef<Path>, repair: impl FnMut(&mut Dead<'_>) -> Repair) -> io::Result<u64> {
    let path = c_path(path.as_ref())?;
    let mut reaped = 0;
    let mut repairing = Repairing::new(repair);
    let (call, context) = repairing.for_c();
    // SAFETY: as above, and the count is written within its bounds.
    let error = unsafe { ffi::rme_reap_all(path.as_ptr(), Some(call), context, &mut reaped) };
    repairing.end();
    io_result(error)?;
    Ok(reaped)
}

/// A repair that C calls. A panic does not pass through C: it is kept, and goes on at the end.
pub(crate) struct Repairing<F> {
    repair: F,
    panic: Option<Box<dyn Any + Send>>,
    _stays: PhantomData<*mut ()>,
}

impl<F: FnMut(&mut Dead<'_>) -> Repair> Repairing<F> {
    pub(crate) fn new(repair: F) -> Self {
        Repairing { repair, panic: None, _stays: PhantomData }
    }

    pub(crate) fn for_c(&mut self) -> (RmeRepair, *mut c_void) {
        (called_by_c::<F>, ptr::from_mut(self).cast())
    }

    pub(crate) fn end(self) {
        if let Some(panic) = self.panic {
            panic::resume_unwind(panic);
        }
    }

    fn run(&mut self, dead: &mut Dead<'_>) -> c_int {
        match panic::catch_unwind(AssertUnwindSafe(|| (self.repair)(dead))) {
            Ok(Repair::Done) => 0,
            Ok(Repair::Lost) => 1,
            Ok(Repair::Later) => ffi::EINTR,
            Err(panic) => {
                self.panic = Some(panic);
                1
            }
        }
    }
}

extern "C" fn called_by_c<F>(seat: *mut RmeSeat, index: u64, data: *mut c_void, bytes: usize, context: *mut c_void) -> c_int
where
    F: FnMut(&mut Dead<'_>) -> Repair,
{
    let shared: &[AtomicU8] = match data.is_null() {
        true => &[],
        // SAFETY: C hands over the data area of the file, which is mapped until the repair is over.
        false => unsafe { std::slice::from_raw_parts(data.cast(), bytes) },
    };
    // SAFETY: the context is the one of `for_c`, of the same type, and nothing else uses it meanwhile.
    let repairing = unsafe { &mut *context.cast::<Repairing<F>>() };
    repairing.run(&mut Dead { seat, index, data: Data::new(shared) })
}
