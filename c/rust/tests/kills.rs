//! Real processes that are killed: this program starts itself again as each of them.
//!
//! Whoever is inside counts two numbers of the caller's data, one after the other. Whoever finds them apart has met somebody
//! else inside, unless its lock said that its owner died.

use std::env;
use std::path::{Path, PathBuf};
use std::process::{Child, Command, ExitStatus};
use std::thread;
use std::time::{Duration, Instant};

use rme::{Appended, Guard, Inspection, Life, Repair, Seat};

const SENDERS: u64 = 4;
const MESSAGES: u64 = 150;
const LONGEST: Duration = Duration::from_secs(60);

/// The numbers in the caller's data, each of eight bytes.
#[derive(Clone, Copy)]
enum Tally {
    First,
    Second,
    OwnerDied,
    Overlaps,
    Repairs,
}

fn get(data: rme::Data<'_>, tally: Tally) -> u64 {
    let mut bytes = [0; 8];
    data.read(8 * tally as usize, &mut bytes);
    u64::from_le_bytes(bytes)
}

fn set(data: rme::Data<'_>, tally: Tally, number: u64) {
    data.write(8 * tally as usize, &number.to_le_bytes());
}

fn add(data: rme::Data<'_>, tally: Tally) {
    set(data, tally, get(data, tally) + 1);
}

// ---- one process

fn value_of(sender: u64, number: u64) -> [u64; 2] {
    [1000 * sender + number, number * number]
}

fn come_in(seat: &mut Seat, reaps: bool) -> Guard<'_> {
    let entered = match reaps {
        false => seat.lock(),
        true => seat.lock_reaping(100, |dead| {
            set(dead.data(), Tally::Second, get(dead.data(), Tally::First));
            add(dead.data(), Tally::Repairs);
            Repair::Done
        }),
    };
    let mut guard = entered.expect("lock");
    let data = guard.data();
    if guard.owner_died() {
        set(data, Tally::Second, get(data, Tally::First));
        add(data, Tally::OwnerDied);
        guard.mended().expect("mended");
    } else if get(guard.data(), Tally::First) != get(guard.data(), Tally::Second) {
        add(guard.data(), Tally::Overlaps);
    }
    guard
}

/// Sends its messages. Who `lingers` stays inside at the middle one until it is killed.
fn send(path: &Path, index: u64, reaps: bool, lingers: bool) {
    let mut seat = Seat::attach(path, index).expect("attach");
    let sent = seat.read_from(0).filter(|message| message.sender == index).count() as u64;
    // It sends its last message again: nothing may come of that.
    for number in sent.max(1)..=MESSAGES {
        let mut guard = come_in(&mut seat, reaps);
        add(guard.data(), Tally::First);
        let lingers_now = lingers && number == MESSAGES / 2;
        thread::sleep(if lingers_now { LONGEST } else { Duration::from_micros(200) });
        let appended = guard.append(number, &value_of(index, number)).expect("append");
        assert_eq!(appended == Appended::Already, number == sent, "message {number} of {index}");
        add(guard.data(), Tally::Second);
        guard.unlock().expect("unlock");
    }
    seat.detach().expect("detach");
}

// ---- who starts and kills them

/// A sender, which is killed at the latest where this is dropped.
struct Sender(Child);

impl Drop for Sender {
    fn drop(&mut self) {
        let _ = self.0.kill();
        let _ = self.0.wait();
    }
}

impl Sender {
    fn kill(&mut self) -> ExitStatus {
        self.0.kill().expect("kill");
        self.0.wait().expect("wait")
    }

    fn ended(&mut self) -> Option<ExitStatus> {
        self.0.try_wait().expect("wait")
    }
}

fn start(path: &Path, index: u64, reaps: bool, lingers: bool) -> Sender {
    let program = env::current_exe().expect("this program");
    let words = [index.to_string(), reaps.to_string(), lingers.to_string()];
    Sender(Command::new(program).arg("send").arg(path).args(words).spawn().expect("start"))
}

fn fresh(name: &str) -> PathBuf {
    let folder = env::temp_dir().join(format!("rme-kills-{}-{name}", std::process::id()));
    std::fs::create_dir_all(&folder).expect("folder");
    let path = folder.join("box");
    rme::create(&path, SENDERS, SENDERS * MESSAGES, 2, 64).expect("create");
    path
}

fn killed(status: ExitStatus) -> bool {
    use std::os::unix::process::ExitStatusExt;
    status.signal() == Some(9)
}

/// Each message that stands has its sender's next number and its value; answers how many stand of each sender.
fn counts(path: &Path) -> [u64; SENDERS as usize] {
    let mut counts = [0; SENDERS as usize];
    for message in Inspection::open(path).expect("inspect").read_from(0) {
        let count = &mut counts[message.sender as usize];
        *count += 1;
        assert_eq!(message.number, *count);
        assert_eq!(message.value(), value_of(message.sender, message.number));
    }
    counts
}

fn tallies(path: &Path) -> (u64, u64, u64) {
    let mut seat = Seat::attach(path, 0).expect("attach");
    let guard = come_in(&mut seat, true);
    let all = [Tally::OwnerDied, Tally::Repairs, Tally::Overlaps].map(|tally| get(guard.data(), tally));
    (all[0], all[1], all[2])
}

/// Processes that are killed again and again, and started again each time.
fn started_again() {
    let path = fresh("again");
    let mut children: Vec<_> = (0..SENDERS).map(|index| Some(start(&path, index, false, false))).collect();
    let (begin, mut kills, mut draw) = (Instant::now(), 0, 88_172_645_463_325_252_u64);
    while children.iter().any(Option::is_some) {
        assert!(begin.elapsed() < 4 * LONGEST, "they do not end");
        thread::sleep(Duration::from_millis(2));
        draw ^= draw << 13;
        draw ^= draw >> 7;
        draw ^= draw << 17;
        let index = draw % SENDERS;
        let Some(child) = &mut children[index as usize] else { continue };
        let ended = match child.ended() {
            None if kills < 300 => child.kill(),
            None => continue,
            Some(status) => status,
        };
        assert!(killed(ended) || ended.success(), "sender {index}: {ended}");
        kills += u64::from(killed(ended));
        children[index as usize] = killed(ended).then(|| start(&path, index, false, false));
    }
    assert_eq!(counts(&path), [MESSAGES; SENDERS as usize]);
    let (owner_died, _, overlaps) = tallies(&path);
    println!("started again: {kills} kills, {owner_died} deaths inside were found, {overlaps} overlaps");
    assert!(kills >= 20 && owner_died > 0 && overlaps == 0);
    std::fs::remove_dir_all(path.parent().expect("folder")).expect("remove");
}

/// Two of four are killed inside for good; the others reap them, and finish.
fn never_started_again() {
    let path = fresh("never");
    let mut dying: Vec<_> = (0..2).map(|index| (index, start(&path, index, true, true))).collect();
    let mut living: Vec<_> = (2..SENDERS).map(|index| start(&path, index, true, false)).collect();
    let look = Inspection::open(&path).expect("inspect");
    let begin = Instant::now();
    // Each of the dying stays inside at the middle of its messages: the later one once the earlier is reaped.
    while !dying.is_empty() {
        assert!(begin.elapsed() < LONGEST, "the dying do not come so far");
        thread::sleep(Duration::from_millis(1));
        dying.retain_mut(|(index, child)| {
            let sent = look.read_from(0).filter(|message| message.sender == *index).count() as u64;
            let stands = look.index_status(*index).expect("status").stands;
            let lingers = sent == MESSAGES / 2 - 1 && stands == Some(rme::Found::Inside);
            if lingers {
                // It has just come in, or stays: in a moment it has counted the first number.
                thread::sleep(Duration::from_millis(20));
                assert!(killed(child.kill()));
            }
            !lingers
        });
    }
    for child in &mut living {
        let begin = Instant::now();
        let ended = loop {
            if let Some(status) = child.ended() {
                break status;
            }
            assert!(begin.elapsed() < LONGEST, "the living do not go on");
            thread::sleep(Duration::from_millis(1));
        };
        assert!(ended.success());
    }
    assert_eq!(counts(&path), [MESSAGES / 2 - 1, MESSAGES / 2 - 1, MESSAGES, MESSAGES]);
    for index in 0..2 {
        let status = look.index_status(index).expect("status");
        assert_eq!((status.life, status.reaped), (Life::Absent, Some(rme::Found::Inside)));
    }
    let (owner_died, repairs, overlaps) = tallies(&path);
    println!("never started again: {repairs} repairs, {overlaps} overlaps");
    assert_eq!((owner_died, repairs, overlaps), (0, 2, 0));
    std::fs::remove_dir_all(path.parent().expect("folder")).expect("remove");
}

fn main() {
    let words: Vec<_> = env::args().skip(1).collect();
    if let [what, path, index, reaps, lingers] = &words[..] {
        if what == "send" {
            return send(Path::new(path), index.parse().expect("index"), reaps == "true", lingers == "true");
        }
    }
    started_again();
    never_started_again();
}
