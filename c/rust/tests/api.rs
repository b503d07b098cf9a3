//! Each call's answers and refusals, within one process.

use std::io::ErrorKind;
use std::mem;
use std::panic::{self, AssertUnwindSafe};
use std::path::PathBuf;
use std::sync::atomic::{AtomicU32, Ordering};
use std::time::{Duration, Instant};

use rme::{Appended, Found, Inspection, Life, LockError, MailError, Repair, Seat};

/// A folder of its own for each test, with a file for two processes and two messages of two words.
struct Room(PathBuf);

impl Room {
    fn new() -> Room {
        static NEXT: AtomicU32 = AtomicU32::new(0);
        let name = format!("rme-api-{}-{}", std::process::id(), NEXT.fetch_add(1, Ordering::Relaxed));
        let room = Room(std::env::temp_dir().join(name));
        std::fs::create_dir_all(&room.0).unwrap();
        rme::create(room.path(), 2, 2, 2, 16).unwrap();
        room
    }

    fn path(&self) -> PathBuf {
        self.0.join("box")
    }

    fn seat(&self, index: u64) -> Seat {
        Seat::attach(self.path(), index).unwrap()
    }

    /// Leaves this index as a process that died inside.
    fn die_inside(&self, index: u64) {
        let mut seat = self.seat(index);
        mem::forget(seat.lock().unwrap());
        drop(seat);
    }
}

impl Drop for Room {
    fn drop(&mut self) {
        let _ = std::fs::remove_dir_all(&self.0);
    }
}

#[test]
fn a_file_is_made_once_and_an_index_taken_once() {
    let room = Room::new();
    assert_eq!(rme::create(room.path(), 2, 2, 2, 0).unwrap_err().kind(), ErrorKind::AlreadyExists);
    assert_eq!(rme::create(room.0.join("other"), 65, 2, 2, 0).unwrap_err().kind(), ErrorKind::InvalidInput);
    assert_eq!(rme::create("a\0b", 2, 2, 2, 0).unwrap_err().kind(), ErrorKind::InvalidInput);
    let seat = room.seat(0);
    assert_eq!(Seat::attach(room.path(), 0).err().unwrap().raw_os_error(), Some(16));
    assert_eq!(Seat::attach(room.path(), 2).err().unwrap().kind(), ErrorKind::InvalidInput);
    assert_eq!(Seat::attach(room.0.join("none"), 0).err().unwrap().kind(), ErrorKind::NotFound);
    seat.detach().unwrap();
    assert!(!room.seat(0).crashed());
}

#[test]
fn messages_are_stored_once_in_order() {
    let room = Room::new();
    let mut seat = room.seat(1);
    let mut guard = seat.lock().unwrap();
    assert_eq!(guard.append(2, &[5, 6]), Err(MailError::Invalid));
    assert_eq!(guard.append(1, &[5]), Err(MailError::Invalid));
    assert_eq!(guard.append(1, &[5, 6]), Ok(Appended::Stored));
    assert_eq!(guard.append(1, &[7, 8]), Ok(Appended::Already));
    assert_eq!(guard.append(2, &[7, 8]), Ok(Appended::Stored));
    assert_eq!(guard.append(3, &[9, 9]), Err(MailError::Full));
    guard.close().unwrap();
    guard.close().unwrap();
    assert_eq!(guard.append(3, &[9, 9]), Err(MailError::Closed));
    guard.unlock().unwrap();
    let read: Vec<_> = seat.read_from(0).map(|m| (m.place, m.sender, m.number, m.value().to_vec())).collect();
    assert_eq!(read, [(0, 1, 1, vec![5, 6]), (1, 1, 2, vec![7, 8])]);
    assert_eq!(seat.read_from(1).count(), 1);
    let status = seat.file_status().unwrap();
    assert_eq!((status.count, status.cap, status.closed, status.ruined), (2, 2, true, false));
}

#[test]
fn more_messages_than_are_read_at_once() {
    let room = Room::new();
    let path = room.0.join("long");
    rme::create(&path, 1, 200, 1, 0).unwrap();
    let mut seat = Seat::attach(&path, 0).unwrap();
    let mut guard = seat.lock().unwrap();
    for number in 1..=200 {
        assert_eq!(guard.append(number, &[3 * number]), Ok(Appended::Stored));
    }
    let numbers: Vec<_> = guard.read_from(0).map(|m| m.number).collect();
    assert_eq!(numbers, (1..=200).collect::<Vec<_>>());
}

#[test]
fn the_board_and_the_data_are_kept() {
    let room = Room::new();
    let mut seat = room.seat(0);
    let mut guard = seat.lock().unwrap();
    guard.put(3, 77).unwrap();
    assert_eq!(guard.get(3), Ok(77));
    assert_eq!(guard.get(4), Err(MailError::Invalid));
    assert_eq!(guard.data().bytes().len(), 16);
    guard.data().write(8, &[1, 2, 3]);
    drop(guard);
    drop(seat);
    let mut other = room.seat(1);
    let mut read = [0; 4];
    other.lock().unwrap().data().read(8, &mut read);
    assert_eq!(read, [1, 2, 3, 0]);
}

#[test]
fn a_lock_that_times_out_keeps_its_place() {
    let room = Room::new();
    let (mut first, mut second) = (room.seat(0), room.seat(1));
    let guard = first.lock().unwrap();
    assert_eq!(second.withdraw(), Err(LockError::NotWaiting));
    assert_eq!(second.lock_within(5).err(), Some(LockError::TimedOut));
    assert_eq!(second.blocker(), Ok((0, true)));
    assert_eq!(second.recover().err(), Some(LockError::Busy));
    assert_eq!(second.withdraw(), Ok(()));
    assert_eq!(second.lock_within(5).err(), Some(LockError::TimedOut));
    drop(guard);
    assert!(!second.lock().unwrap().owner_died());
    mem::forget(second.lock().unwrap());
    assert_eq!(second.lock().err(), Some(LockError::AlreadyInside));
}

#[test]
fn who_died_inside_is_told_and_mends() {
    let room = Room::new();
    room.die_inside(0);
    let mut seat = room.seat(0);
    assert!(seat.crashed());
    let mut guard = seat.lock().unwrap();
    assert!(guard.owner_died());
    assert_eq!(guard.append(1, &[1, 1]), Err(MailError::OwnerDied));
    guard.mended().unwrap();
    assert_eq!(guard.mended(), Err(LockError::NothingToMend));
    assert_eq!(guard.append(1, &[1, 1]), Ok(Appended::Stored));
    drop(guard);
    seat.detach().unwrap();
    assert!(!room.seat(0).lock().unwrap().owner_died());
}

#[test]
fn a_guard_that_is_not_mended_ruins_the_lock() {
    let room = Room::new();
    room.die_inside(0);
    drop(room.seat(0).lock().unwrap());
    assert_eq!(room.seat(1).lock().err(), Some(LockError::NotRecoverable));
    assert!(Inspection::open(room.path()).unwrap().file_status().unwrap().ruined);
}

#[test]
fn a_recovery_finds_who_died_inside() {
    let room = Room::new();
    let mut seat = room.seat(1);
    assert_eq!(seat.recover().unwrap().found, Found::Idle);
    room.die_inside(0);
    let mut dead = room.seat(0);
    let recovery = dead.recover().unwrap();
    assert_eq!(recovery.found, Found::Inside);
    let mut guard = recovery.guard.unwrap();
    guard.mended().unwrap();
    guard.unlock().unwrap();
    drop(seat.lock().unwrap());
}

#[test]
fn a_panic_inside_is_a_death_inside() {
    let room = Room::new();
    let path = room.path();
    let caught = panic::catch_unwind(AssertUnwindSafe(|| {
        let mut seat = Seat::attach(&path, 0).unwrap();
        let guard = seat.lock().unwrap();
        guard.data().write(0, &[1]);
        panic!("half done");
    }));
    assert!(caught.is_err());
    assert!(room.seat(0).lock().unwrap().owner_died());
}

#[test]
fn the_dead_are_reaped_once() {
    let room = Room::new();
    assert_eq!(rme::reap(room.path(), 0, |_| Repair::Done).unwrap_err().raw_os_error(), Some(3));
    room.die_inside(0);
    let look = Inspection::open(room.path()).unwrap();
    let dead = look.index_status(0).unwrap();
    assert_eq!((dead.life, dead.stands), (Life::Dead, Some(Found::Inside)));
    let mut repaired = Vec::new();
    let reaped = rme::reap_all(room.path(), |dead| {
        repaired.push((dead.index(), dead.data().bytes().len()));
        dead.put(0, 5).unwrap();
        assert_eq!(dead.get(0), Ok(5));
        Repair::Done
    });
    assert_eq!((reaped.unwrap(), repaired), (1, vec![(0, 16)]));
    let seat = room.seat(0);
    assert_eq!((seat.crashed(), seat.reaped()), (false, Some(Found::Inside)));
    assert_eq!(look.index_status(0).unwrap().life, Life::Alive);
    assert_eq!(rme::reap_all(room.path(), |_| Repair::Done).unwrap(), 0);
}

#[test]
fn a_waiter_reaps_who_died_inside() {
    let room = Room::new();
    room.die_inside(0);
    let mut seat = room.seat(1);
    let mut repaired = 0;
    let guard = seat.lock_reaping(5, |dead| {
        repaired += 1 + dead.index();
        Repair::Done
    });
    assert!(!guard.unwrap().owner_died());
    assert_eq!(repaired, 1);
}

#[test]
fn a_repair_that_says_lost_or_panics_ruins_the_lock() {
    for panics in [false, true] {
        let room = Room::new();
        room.die_inside(0);
        let path = room.path();
        let reaped = panic::catch_unwind(|| rme::reap(path, 0, |_| if panics { panic!("no repair") } else { Repair::Lost }));
        match reaped {
            Ok(answer) => assert_eq!((panics, answer.unwrap_err().raw_os_error()), (false, Some(131))),
            Err(_) => assert!(panics),
        }
        assert_eq!(room.seat(1).lock().err(), Some(LockError::NotRecoverable));
    }
}

#[test]
fn a_seat_goes_to_another_thread() {
    let room = Room::new();
    let mut seat = room.seat(0);
    let seat = std::thread::spawn(move || {
        drop(seat.lock().unwrap());
        seat
    })
    .join()
    .unwrap();
    seat.detach().unwrap();
}

#[test]
fn a_lock_that_is_tried_waits_for_nobody() {
    let room = Room::new();
    let (mut first, mut second) = (room.seat(0), room.seat(1));
    let guard = first.lock().unwrap();
    assert_eq!(second.try_lock().err(), Some(LockError::Blocked));
    assert_eq!(second.withdraw(), Err(LockError::NotWaiting));
    drop(guard);
    drop(second.try_lock().unwrap());
}

#[test]
fn a_lock_ends_at_its_time() {
    let room = Room::new();
    let (mut first, mut second) = (room.seat(0), room.seat(1));
    let guard = first.lock().unwrap();
    let begin = Instant::now();
    let soon = begin + Duration::from_millis(200);
    assert_eq!(second.lock_until(soon).err(), Some(LockError::TimedOut));
    assert!(begin.elapsed() >= Duration::from_millis(200));
    assert_eq!(second.lock_reaping_until(3, soon, |_| Repair::Done).err(), Some(LockError::TimedOut));
    drop(guard);
    drop(second.lock_until(soon).unwrap());
}

#[test]
fn another_thread_ends_a_lock_that_waits() {
    let room = Room::new();
    let (mut first, mut second) = (room.seat(0), room.seat(1));
    let guard = first.lock().unwrap();
    let interrupter = second.interrupter();
    std::thread::scope(|scope| {
        let waits = scope.spawn(|| second.lock().err());
        std::thread::sleep(Duration::from_millis(100));
        interrupter.interrupt().unwrap();
        assert_eq!(waits.join().unwrap(), Some(LockError::Interrupted));
    });
    second.withdraw().unwrap();
    drop(second);
    assert!(interrupter.interrupt().is_err());
    drop(guard);
}

#[test]
fn a_repair_may_leave_it_to_the_next() {
    let room = Room::new();
    room.die_inside(0);
    let error = rme::reap(room.path(), 0, |_| Repair::Later).unwrap_err();
    assert_eq!(error.kind(), ErrorKind::Interrupted);
    let look = Inspection::open(room.path()).unwrap();
    assert_eq!(look.index_status(0).unwrap().life, Life::Dead);
    rme::reap(room.path(), 0, |_| Repair::Done).unwrap();
    let mut seat = room.seat(0);
    assert_eq!(seat.reaped(), Some(Found::Inside));
    seat.acknowledge().unwrap();
    assert_eq!(seat.reaped(), None);
}

#[test]
fn a_file_has_a_mode_and_a_descriptor() {
    use std::os::unix::fs::PermissionsExt;
    let room = Room::new();
    let path = room.0.join("shared");
    rme::create_as(&path, 2, 2, 2, 0, 0o640, None).unwrap();
    assert_eq!(std::fs::metadata(&path).unwrap().permissions().mode() & 0o777, 0o640);
    assert_eq!(rme::create_as(&room.0.join("o"), 2, 2, 2, 0, 0o40, None).unwrap_err().kind(), ErrorKind::InvalidInput);
    let file = std::fs::OpenOptions::new().read(true).write(true).open(&path).unwrap();
    let mut seat = Seat::attach_file(&file, 0, Duration::ZERO).unwrap();
    assert_eq!(Seat::attach_file(&file, 0, Duration::ZERO).err().unwrap().raw_os_error(), Some(16));
    drop(seat.lock().unwrap());
    assert_eq!((seat.pid(0), seat.pid(1)), (Some(std::process::id().into()), None));
    assert_eq!(seat.index_status(0).unwrap().entries, 1);
}

#[test]
fn the_versions_agree() {
    assert_eq!(rme::version(), env!("CARGO_PKG_VERSION"));
}
