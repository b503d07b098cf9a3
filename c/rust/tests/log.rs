//! The log: what its calls answer, and a reader as an iterator.

use std::fs;
use std::io::ErrorKind;
use std::path::PathBuf;
use std::sync::atomic::{AtomicU64, Ordering};
use std::thread;
use std::time::Duration;

use rme::{Appended, Cursor, Log, LogReader};

/// A folder of its own, with a log of two senders and segments of two messages.
struct Room(PathBuf);

impl Room {
    fn new() -> Room {
        static COUNT: AtomicU64 = AtomicU64::new(0);
        let name = format!("rme-log-{}-{}", std::process::id(), COUNT.fetch_add(1, Ordering::Relaxed));
        let folder = std::env::temp_dir().join(name);
        fs::create_dir_all(&folder).unwrap();
        rme::create_log(folder.join("log"), 2, 2, 1).unwrap();
        Room(folder)
    }

    fn path(&self) -> PathBuf {
        self.0.join("log")
    }

    fn send(&self, sender: u64, count: u64) {
        let mut log = Log::open(self.path(), sender).unwrap();
        for number in log.next_number().unwrap()..=count {
            assert_eq!(log.append(number, &[100 * sender + number]).unwrap(), Appended::Stored);
        }
    }
}

impl Drop for Room {
    fn drop(&mut self) {
        let _ = fs::remove_dir_all(&self.0);
    }
}

fn numbers(reader: &mut LogReader) -> Vec<u64> {
    reader.map(|message| message.unwrap().number).collect()
}

#[test]
fn a_message_is_stored_once() {
    let room = Room::new();
    let mut log = Log::open(room.path(), 0).unwrap();
    assert_eq!(Log::open(room.path(), 0).err().unwrap().kind(), ErrorKind::ResourceBusy);
    for number in 1..=5 {
        assert_eq!(log.append(number, &[number]).unwrap(), Appended::Stored);
        assert_eq!(log.append(number, &[number]).unwrap(), Appended::Already);
    }
    assert_eq!(log.append(7, &[7]).unwrap_err().kind(), ErrorKind::InvalidInput);
    assert_eq!(log.append(6, &[6, 6]).unwrap_err().kind(), ErrorKind::InvalidInput);
    assert_eq!(log.next_number().unwrap(), 6);
    assert_eq!(rme::create_log(room.path(), 2, 2, 1).unwrap_err().kind(), ErrorKind::AlreadyExists);
    let status = rme::log_status(room.path()).unwrap();
    assert_eq!((status.first, status.last, status.messages, status.numbers), (1, 3, 5, vec![5, 0]));
}

#[test]
fn a_reader_is_an_iterator_that_goes_on() {
    let room = Room::new();
    let mut reader = LogReader::open(room.path()).unwrap();
    assert!(reader.next().is_none());
    room.send(0, 3);
    assert_eq!(numbers(&mut reader), [1, 2, 3]);
    room.send(0, 5);
    let message = reader.next().unwrap().unwrap();
    assert_eq!((message.sender, message.number, message.value()), (0, 4, &[4][..]));
    assert_eq!(reader.cursor(), Cursor { segment: 2, place: 2 });
    reader.seek(Some(Cursor { segment: 1, place: 1 })).unwrap();
    assert_eq!(numbers(&mut reader), [2, 3, 4, 5]);
    reader.seek(None).unwrap();
    reader.seek_end().unwrap();
    assert!(reader.next().is_none());
    assert_eq!(reader.keep().unwrap_err().kind(), ErrorKind::InvalidInput);
}

#[test]
fn a_named_reader_keeps_segments() {
    let room = Room::new();
    room.send(0, 7);
    let mut reader = LogReader::named(room.path(), "audit").unwrap();
    assert_eq!(LogReader::named(room.path(), "audit").err().unwrap().kind(), ErrorKind::ResourceBusy);
    assert_eq!(LogReader::named(room.path(), "a/b").err().unwrap().kind(), ErrorKind::InvalidInput);
    reader.by_ref().take(5).for_each(|message| assert!(message.is_ok()));
    reader.keep().unwrap();
    drop(reader);
    assert_eq!(rme::drop_segments(room.path(), u64::MAX).unwrap(), 3);
    assert_eq!(numbers(&mut LogReader::named(room.path(), "audit").unwrap()), [6, 7]);
    rme::forget_reader(room.path(), "audit").unwrap();
    assert_eq!(rme::forget_reader(room.path(), "audit").unwrap_err().kind(), ErrorKind::NotFound);
    assert_eq!(rme::drop_segments(room.path(), u64::MAX).unwrap(), 4);
}

#[test]
fn one_that_was_overtaken_is_told() {
    let room = Room::new();
    room.send(0, 7);
    let mut reader = LogReader::open(room.path()).unwrap();
    rme::drop_segments(room.path(), 3).unwrap();
    assert!(rme::was_overtaken(&reader.next().unwrap().unwrap_err()));
    assert!(rme::was_overtaken(&reader.wait(Duration::ZERO).unwrap_err()));
    reader.seek(None).unwrap();
    assert_eq!(numbers(&mut reader), [5, 6, 7]);
}

#[test]
fn a_reader_sleeps_until_there_is_more() {
    let room = Room::new();
    let mut reader = LogReader::open(room.path()).unwrap();
    assert!(!reader.wait(Duration::from_millis(10)).unwrap());
    assert!(reader.event().unwrap() >= 0);
    thread::scope(|scope| {
        scope.spawn(|| {
            thread::sleep(Duration::from_millis(20));
            room.send(1, 5);
        });
        let mut read = Vec::new();
        while read.len() < 5 {
            assert!(reader.wait(Duration::from_secs(10)).unwrap());
            read.extend(numbers(&mut reader));
        }
        assert_eq!(read, [1, 2, 3, 4, 5]);
    });
}
