//! How a file and an index stand.

use std::ffi::c_int;
use std::io;
use std::path::Path;

use crate::ffi::{self, RmeFile, RmeIndex};
use crate::handle::{Handle, Messages};

/// Where an earlier process of an index stood.
#[derive(Clone, Copy, Debug, PartialEq, Eq, Hash)]
pub enum Found {
    /// At rest.
    Idle,
    /// It was leaving.
    Left,
    /// It was taking its number.
    Doorway,
    /// It was waiting in line.
    Waiting,
    /// It died inside.
    Inside,
}

impl Found {
    pub(crate) fn of(number: c_int) -> Option<Found> {
        match number {
            23 => Some(Found::Idle),
            24 => Some(Found::Left),
            25 => Some(Found::Doorway),
            26 => Some(Found::Waiting),
            27 => Some(Found::Inside),
            _ => None,
        }
    }
}

/// Whether a process has an index.
#[derive(Clone, Copy, Debug, PartialEq, Eq, Hash)]
pub enum Life {
    /// No process is attached.
    Absent,
    /// A living process is.
    Alive,
    /// One died, and its place is not released.
    Dead,
    /// One died, and a reaper acts for it.
    InReaping,
}

/// The state of a file, each number read by itself.
#[derive(Clone, Copy, Debug, PartialEq, Eq)]
#[non_exhaustive]
pub struct FileStatus {
    /// How many processes it is for.
    pub procs: u64,
    /// How many messages it has room for.
    pub cap: u64,
    /// How many words a message has.
    pub width: u64,
    /// How many bytes of the caller's own data it has.
    pub data_bytes: u64,
    /// How many messages stand in it.
    pub count: u64,
    /// Whether nothing is appended any more.
    pub closed: bool,
    /// Whether the lock is ruined for good.
    pub ruined: bool,
}

/// The state of an index.
#[derive(Clone, Copy, Debug, PartialEq, Eq)]
#[non_exhaustive]
pub struct IndexStatus {
    /// Whether a process has the index.
    pub life: Life,
    /// Where its lock words say that it stands; `None` where they are corrupt.
    pub stands: Option<Found>,
    /// Where a reaper found the last process of this index that died, since an orderly detach.
    pub reaped: Option<Found>,
    /// The pid of the process that attached last, as it sees itself; 0 none since an orderly detach.
    pub pid: i64,
    /// How often a process of this index has entered.
    pub entries: u64,
    /// How often it had to wait for that.
    pub waits: u64,
}

impl FileStatus {
    pub(crate) fn of(status: &RmeFile) -> FileStatus {
        FileStatus {
            procs: status.procs,
            cap: status.cap,
            width: status.width,
            data_bytes: status.data_bytes,
            count: status.count,
            closed: status.closed != 0,
            ruined: status.ruined != 0,
        }
    }
}

impl IndexStatus {
    pub(crate) fn of(status: &RmeIndex) -> IndexStatus {
        let life = match status.life {
            1 => Life::Alive,
            2 => Life::Dead,
            3 => Life::InReaping,
            _ => Life::Absent,
        };
        IndexStatus {
            life,
            stands: Found::of(status.found),
            reaped: Found::of(status.reaped),
            pid: status.pid,
            entries: status.entries,
            waits: status.waits,
        }
    }
}

/// A file that is only read: nothing in it is changed, and read permission is enough.
pub struct Inspection {
    handle: Handle,
}

impl Inspection {
    /// Opens the file.
    pub fn open(path: impl AsRef<Path>) -> io::Result<Inspection> {
        // SAFETY: the handle's room is a seat's, and the path ends with a zero.
        let handle = Handle::open(path.as_ref(), |seat, path| unsafe { ffi::rme_inspect(seat, path) })?;
        Ok(Inspection { handle })
    }

    /// The state of the file.
    pub fn file_status(&self) -> io::Result<FileStatus> {
        self.handle.file_status()
    }

    /// The state of an index. Its lease shows whether a process lives.
    pub fn index_status(&self, index: u64) -> io::Result<IndexStatus> {
        self.handle.index_status(index)
    }

    /// The messages from this place on.
    pub fn read_from(&self, place: u64) -> Messages<'_> {
        self.handle.read_from(place)
    }
}
