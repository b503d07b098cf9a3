//! A recoverable first-come first-served lock with a mailbox, between processes that may die at any instant.
//!
//! Processes share a file. Each [`attach`](Seat::attach)es to it under an index of its own. Whoever has its number before
//! another asks for one enters first. Where one dies inside, nobody enters before it has entered again: it is started again under its
//! index, its lock reports that the owner died ([`Guard::owner_died`]), and it repairs what was left half done. Where nobody starts it
//! again, a living process releases its place: [`reap`](reap()) and [`Seat::lock_reaping`]. A mailbox under the lock stores each message once, even where a
//! death cuts an append in two.
//!
//! ```
//! use rme::Seat;
//!
//! # let folder = std::env::temp_dir().join(format!("rme-doc-{}", std::process::id()));
//! # std::fs::create_dir_all(&folder)?;
//! # let path = folder.join("box");
//! rme::create(&path, 2, 1024, 1, 0)?; // 2 processes, 1,024 messages of one word
//! let mut seat = Seat::attach(&path, 0)?;
//! let next = 1 + seat.read_from(0).filter(|message| message.sender == 0).count() as u64;
//! let mut guard = seat.lock()?;
//! if guard.owner_died() {
//!     // An earlier process with this index died inside: repair what the lock guards.
//!     guard.mended()?;
//! }
//! guard.append(next, &[77])?;
//! guard.unlock()?;
//! assert_eq!(seat.read_from(0).next().unwrap().value(), &[77]);
//! # std::fs::remove_dir_all(&folder)?;
//! # Ok::<(), Box<dyn std::error::Error>>(())
//! ```
//!
//! A death inside, and its repair on behalf of the dead:
//!
//! ```
//! use rme::{Repair, Seat};
//!
//! # let folder = std::env::temp_dir().join(format!("rme-reap-{}", std::process::id()));
//! # std::fs::create_dir_all(&folder)?;
//! # let path = folder.join("box");
//! rme::create(&path, 2, 1024, 1, 64)?; // and 64 bytes of the caller's own, which the lock guards
//! let mut dying = Seat::attach(&path, 0)?;
//! std::mem::forget(dying.lock()?);
//! drop(dying); // inside: this counts as a death
//!
//! let mut seat = Seat::attach(&path, 1)?;
//! let guard = seat.lock_reaping(10, |dead| {
//!     dead.data().write(0, &[0; 64]);
//!     Repair::Done
//! })?;
//! assert!(!guard.owner_died()); // the dead one's place is released, and this lock is this process's own
//! drop(guard);
//! assert_eq!(Seat::attach(&path, 0)?.reaped(), Some(rme::Found::Inside));
//! # std::fs::remove_dir_all(&folder)?;
//! # Ok::<(), Box<dyn std::error::Error>>(())
//! ```
//!
//! What is proved of it, what is only tested, and what is trusted: the page of the library for C, which this crate calls. In
//! short: only this library writes the file, nobody cuts it short while it is open (that ends in SIGBUS), a file that is in
//! use is never replaced under its name, and a child of `fork` has no seat.

#![warn(missing_docs)]

mod error;
mod ffi;
mod guard;
mod handle;
mod log;
mod log_ffi;
mod reap;
mod seat;
mod status;

pub use error::{LockError, MailError};
pub use guard::{Appended, Data, Guard};
pub use handle::{Interrupter, Message, Messages};
pub use log::{
    create_log, drop_segments, forget_reader, log_status, was_overtaken, Cursor, Log, LogMessage, LogReader, LogStatus,
};
pub use reap::{reap, reap_all, Dead, Repair};
pub use seat::{create, create_as, Recovery, Seat};
pub use status::{FileStatus, Found, IndexStatus, Inspection, Life};

/// The version of the library for C.
pub fn version() -> &'static str {
    // SAFETY: the answer is a text that ends with a zero, and stays.
    unsafe { std::ffi::CStr::from_ptr(ffi::rme_version()) }.to_str().unwrap_or("")
}
