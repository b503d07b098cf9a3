//! A log of messages that does not fill: a folder of mailboxes, each of which goes on where the one before was closed.

use std::ffi::{c_char, c_int, c_void, CString};
use std::io;
use std::marker::PhantomData;
use std::os::fd::RawFd;
use std::path::Path;
use std::time::Duration;

use crate::error::io_result;
use crate::ffi::{self, RmeMessage};
use crate::guard::Appended;
use crate::handle::c_path;
use crate::log_ffi::{self, RmeCursor, RmeLogState};

/// Makes a log in this folder: for `procs` senders (1 to 64), and messages of `width` words (1 to 8), `cap` of them in each segment.
///
/// # Errors
///
/// [`AlreadyExists`](io::ErrorKind::AlreadyExists) where there is a log; [`InvalidInput`](io::ErrorKind::InvalidInput) where the
/// sizes are out of range; and those of the system.
pub fn create_log(folder: impl AsRef<Path>, procs: u64, cap: u64, width: u64) -> io::Result<()> {
    let folder = c_path(folder.as_ref())?;
    // SAFETY: the path ends with a zero.
    io_result(unsafe { log_ffi::rme_log_create(folder.as_ptr(), procs, cap, width) })
}

/// Takes away the segments before this one that all named readers have passed, but for the last; answers the first that is left.
///
/// # Errors
///
/// Those of the system, and where a file of the log is none of its own.
pub fn drop_segments(folder: impl AsRef<Path>, before: u64) -> io::Result<u64> {
    let (folder, mut first) = (c_path(folder.as_ref())?, 0);
    // SAFETY: the path ends with a zero, and the answer is written within its bounds.
    io_result(unsafe { log_ffi::rme_log_drop(folder.as_ptr(), before, &mut first) })?;
    Ok(first)
}

/// Takes away a named reader, so that it keeps nothing from being dropped.
///
/// # Errors
///
/// [`ResourceBusy`](io::ErrorKind::ResourceBusy) where a living process reads under this name;
/// [`NotFound`](io::ErrorKind::NotFound) where there is no such reader.
pub fn forget_reader(folder: impl AsRef<Path>, name: &str) -> io::Result<()> {
    let (folder, name) = (c_path(folder.as_ref())?, CString::new(name)?);
    // SAFETY: both end with a zero.
    io_result(unsafe { log_ffi::rme_log_forget(folder.as_ptr(), name.as_ptr()) })
}

/// How a log stands, each number read by itself.
#[derive(Clone, Debug, PartialEq, Eq)]
#[non_exhaustive]
pub struct LogStatus {
    /// How many words a message has.
    pub width: u64,
    /// The first segment that is not dropped.
    pub first: u64,
    /// The last segment.
    pub last: u64,
    /// How many messages were ever stored.
    pub messages: u64,
    /// How many of them stand before the first segment.
    pub dropped: u64,
    /// Of each sender the number of its last message.
    pub numbers: Vec<u64>,
}

/// How a log stands.
///
/// # Errors
///
/// Those of the system, and where a file of the log is none of its own.
pub fn log_status(folder: impl AsRef<Path>) -> io::Result<LogStatus> {
    let folder = c_path(folder.as_ref())?;
    let mut s = RmeLogState { procs: 0, cap: 0, width: 0, first: 0, last: 0, messages: 0, dropped: 0, numbers: [0; 64] };
    // SAFETY: the path ends with a zero, and the answer is written within its bounds.
    io_result(unsafe { log_ffi::rme_log_status(folder.as_ptr(), &mut s) })?;
    let numbers = s.numbers[..s.procs as usize].to_vec();
    Ok(LogStatus { width: s.width, first: s.first, last: s.last, messages: s.messages, dropped: s.dropped, numbers })
}

/// Room for a struct of C that stays where it is. It may be sent to another thread, but not shared.
struct Room {
    words: Box<[u64]>,
    _not_shared: PhantomData<*mut ()>,
}

// SAFETY: no call of librme is bound to the thread that opened.
unsafe impl Send for Room {}

impl Room {
    fn new(bytes: usize) -> Room {
        Room { words: vec![0; bytes.div_ceil(8)].into_boxed_slice(), _not_shared: PhantomData }
    }

    fn raw(&mut self) -> *mut c_void {
        self.words.as_mut_ptr().cast()
    }
}

/// One living sender of a log. Dropping it gives its index back.
pub struct Log {
    room: Room,
    width: usize,
}

impl Log {
    /// Takes the index of a sender.
    ///
    /// # Errors
    ///
    /// [`ResourceBusy`](io::ErrorKind::ResourceBusy) where a living process has it;
    /// [`InvalidInput`](io::ErrorKind::InvalidInput) where there is no such index; and those of the system.
    pub fn open(folder: impl AsRef<Path>, index: u64) -> io::Result<Log> {
        Log::open_within(folder, index, Duration::ZERO)
    }

    /// The same, and waits at most this long for a process that acts for an earlier one of this index.
    ///
    /// # Errors
    ///
    /// Those of [`open`](Log::open); [`TimedOut`](io::ErrorKind::TimedOut).
    pub fn open_within(folder: impl AsRef<Path>, index: u64, most: Duration) -> io::Result<Log> {
        let width = log_status(folder.as_ref())?.width as usize;
        let (path, milliseconds) = (c_path(folder.as_ref())?, u64::try_from(most.as_millis()).unwrap_or(u64::MAX));
        // SAFETY: rme_log_size has no premise.
        let mut room = Room::new(unsafe { log_ffi::rme_log_size() });
        // SAFETY: the room is a log's, and the path ends with a zero.
        io_result(unsafe { log_ffi::rme_log_open(room.raw(), path.as_ptr(), index, milliseconds) })?;
        Ok(Log { room, width })
    }

    /// The number of this sender's next message.
    ///
    /// # Errors
    ///
    /// Those of [`append`](Log::append).
    pub fn next_number(&mut self) -> io::Result<u64> {
        let mut number = 0;
        // SAFETY: the room is a log's, and the answer is written within its bounds.
        io_result(unsafe { log_ffi::rme_log_next(self.room.raw(), &mut number) })?;
        Ok(number)
    }

    /// Stores a message as this sender's next, of as many words as the log's width. The numbers of a sender go 1, 2, 3 .. through all
    /// segments; a number that was stored before is answered [`Already`](Appended::Already), so after a crash the same append is safe.
    ///
    /// # Errors
    ///
    /// [`InvalidInput`](io::ErrorKind::InvalidInput) where it is not the next number, or a value of another width;
    /// [`StorageFull`](io::ErrorKind::StorageFull) where the disk is full; and those of the system.
    pub fn append(&mut self, number: u64, value: &[u64]) -> io::Result<Appended> {
        if value.len() != self.width {
            return Err(io::Error::from_raw_os_error(ffi::EINVAL));
        }
        // SAFETY: the room is a log's, and the value has as many words as the log's width.
        match unsafe { log_ffi::rme_log_append(self.room.raw(), number, value.as_ptr()) } {
            ffi::EALREADY => Ok(Appended::Already),
            other => io_result(other).map(|()| Appended::Stored),
        }
    }
}

impl Drop for Log {
    fn drop(&mut self) {
        // SAFETY: the room is a log's.
        unsafe { log_ffi::rme_log_close(self.room.raw()) };
    }
}

/// Where a reader stands: the message at `place` of `segment` comes next.
#[derive(Clone, Copy, Debug, PartialEq, Eq, Hash)]
pub struct Cursor {
    /// The number of the segment: the first is 1.
    pub segment: u64,
    /// The place in the segment: the first is 0.
    pub place: u64,
}

/// A message of a log.
#[derive(Clone, Copy, Debug, PartialEq, Eq, Hash)]
pub struct LogMessage {
    /// The index of the process that sent it.
    pub sender: u64,
    /// Its number among that sender's: the first is 1.
    pub number: u64,
    value: [u64; 8],
    width: usize,
}

impl LogMessage {
    /// Its words, as many as the width of the log says.
    pub fn value(&self) -> &[u64] {
        &self.value[..self.width]
    }
}

/// One reader of a log. As an iterator it meets the messages that there are, and may be asked again when more have come. After
/// each its cursor is right past that message.
pub struct LogReader {
    room: Room,
    width: usize,
}

impl LogReader {
    /// A reader that stands at the first message that is not dropped.
    ///
    /// # Errors
    ///
    /// Those of the system, and where a file of the log is none of its own.
    pub fn open(folder: impl AsRef<Path>) -> io::Result<LogReader> {
        LogReader::opened(folder.as_ref(), std::ptr::null())
    }

    /// The reader with this name, where it was at its last [`keep`](LogReader::keep). What it has not passed is not dropped.
    ///
    /// # Errors
    ///
    /// [`ResourceBusy`](io::ErrorKind::ResourceBusy) where a living process reads under this name;
    /// [`InvalidInput`](io::ErrorKind::InvalidInput) where it is no name of letters, digits, `_` and `-`; and those of the system.
    pub fn named(folder: impl AsRef<Path>, name: &str) -> io::Result<LogReader> {
        LogReader::opened(folder.as_ref(), CString::new(name)?.as_ptr())
    }

    fn opened(folder: &Path, name: *const c_char) -> io::Result<LogReader> {
        let (width, path) = (log_status(folder)?.width as usize, c_path(folder)?);
        // SAFETY: rme_log_reader_size has no premise.
        let mut room = Room::new(unsafe { log_ffi::rme_log_reader_size() });
        // SAFETY: the room is a reader's; the path, and the name where there is one, end with a zero.
        io_result(unsafe { log_ffi::rme_log_reader_open(room.raw(), path.as_ptr(), name) })?;
        Ok(LogReader { room, width })
    }

    fn call(&mut self, call: unsafe extern "C" fn(*mut c_void) -> c_int) -> io::Result<()> {
        // SAFETY: the room is a reader's.
        io_result(unsafe { call(self.room.raw()) })
    }

    /// Where it stands.
    pub fn cursor(&self) -> Cursor {
        Cursor { segment: self.room.words[0], place: self.room.words[1] }
    }

    /// Goes to a cursor that it had before; or, without one, to the first message that is not dropped.
    ///
    /// # Errors
    ///
    /// Those of the system.
    pub fn seek(&mut self, cursor: Option<Cursor>) -> io::Result<()> {
        let to = cursor.map_or(RmeCursor::default(), |cursor| RmeCursor { segment: cursor.segment, place: cursor.place });
        // SAFETY: the room is a reader's.
        io_result(unsafe { log_ffi::rme_log_seek(self.room.raw(), to) })
    }

    /// Goes past all messages that there are.
    ///
    /// # Errors
    ///
    /// Those of the iterator.
    pub fn seek_end(&mut self) -> io::Result<()> {
        self.call(log_ffi::rme_log_seek_end)
    }

    /// Keeps the cursor of a named reader: what it has read so far has been processed.
    ///
    /// # Errors
    ///
    /// [`InvalidInput`](io::ErrorKind::InvalidInput) where it has no name.
    pub fn keep(&mut self) -> io::Result<()> {
        self.call(log_ffi::rme_log_keep)
    }

    /// Sleeps until there is a message, at most this long. Answers whether there is one.
    ///
    /// # Errors
    ///
    /// [`Interrupted`](io::ErrorKind::Interrupted) where a signal handler has run; and those of the iterator.
    pub fn wait(&mut self, most: Duration) -> io::Result<bool> {
        let milliseconds = u64::try_from(most.as_millis()).unwrap_or(u64::MAX);
        // SAFETY: the room is a reader's.
        match unsafe { log_ffi::rme_log_wait(self.room.raw(), milliseconds) } {
            ffi::ETIMEDOUT => Ok(false),
            other => io_result(other).map(|()| true),
        }
    }

    /// A descriptor for poll that can be read whenever messages have come. It is the reader's, and ends with it.
    ///
    /// # Errors
    ///
    /// Where the reader has one already; and those of the system.
    pub fn event(&mut self) -> io::Result<RawFd> {
        let mut file = -1;
        // SAFETY: the room is a reader's, and the answer is written within its bounds.
        io_result(unsafe { log_ffi::rme_log_event(self.room.raw(), &mut file) })?;
        Ok(file)
    }
}

/// Whether an error says that a reader was overtaken: messages from its cursor on are dropped, and [`LogReader::seek`] moves it on.
pub fn was_overtaken(error: &io::Error) -> bool {
    error.raw_os_error() == Some(log_ffi::ENODATA)
}

impl Iterator for LogReader {
    type Item = io::Result<LogMessage>;

    fn next(&mut self) -> Option<io::Result<LogMessage>> {
        let (mut read, mut count) = (RmeMessage::default(), 0);
        // SAFETY: the room is a reader's, and there is place for the one message that is asked for.
        let error = unsafe { log_ffi::rme_log_read(self.room.raw(), &mut read, 1, &mut count) };
        match (io_result(error), count) {
            (Err(error), _) => Some(Err(error)),
            (Ok(()), 0) => None,
            (Ok(()), _) => {
                Some(Ok(LogMessage { sender: read.sender, number: read.number, value: read.value, width: self.width }))
            }
        }
    }
}

impl Drop for LogReader {
    fn drop(&mut self) {
        // SAFETY: the room is a reader's.
        unsafe { log_ffi::rme_log_reader_close(self.room.raw()) };
    }
}
