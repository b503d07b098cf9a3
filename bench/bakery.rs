//! The opponent of the running lock: a recoverable Bakery lock with its mailbox, by hand, over sequentially consistent words.
//! It takes the same loads and stores in the same order as a member does, and rests in the same way between two blocked
//! readings. It asks no plan of crashes, and nothing of it is proved.
//!
//!     bakery lock PROCS THREADS ROUNDS      each of THREADS members locks and unlocks ROUNDS times
//!     bakery append PROCS WIDTH ROUNDS      one member appends ROUNDS messages through the lock

use std::sync::atomic::{AtomicU64, Ordering::SeqCst};
use std::{env, hint, thread};

const LIMIT: u64 = 1 << 62;
const CAP: u64 = 65_536;

// The data words, after three lock words a process.
const RUINED: u64 = 0;
const CLOSED: u64 = 1;
const COUNT: u64 = 2;
const ARMED: u64 = 3;
const RECORD: u64 = 4;

/// Rests a little longer each time, and then yields.
struct Backoff {
    step: u32,
}

impl Backoff {
    fn snooze(&mut self) {
        if self.step <= 6 {
            (0..1 << self.step).for_each(|_| hint::spin_loop());
            self.step += 1;
        } else {
            thread::yield_now();
        }
    }
}

#[derive(Clone, Copy, PartialEq)]
enum Entry {
    Clean,
    OwnerDied,
    NumbersSpent,
    NotRecoverable,
}

/// The words of the lock and of its mailbox.
struct Table {
    procs: u64,
    width: u64,
    words: Vec<AtomicU64>,
}

/// One process: its place in the table, and whether it has to mend.
struct Member<'a> {
    table: &'a Table,
    own: u64,
    mended: bool,
}

impl Table {
    fn new(procs: u64, width: u64) -> Table {
        let words = 3 * procs + 10 + width + procs + (2 + width) * CAP;
        Table { procs, width, words: (0..words).map(|_| AtomicU64::new(0)).collect() }
    }
    fn load(&self, word: u64) -> u64 {
        self.words[word as usize].load(SeqCst)
    }
    fn store(&self, word: u64, value: u64) {
        self.words[word as usize].store(value, SeqCst)
    }
    fn choosing(p: u64) -> u64 {
        3 * p
    }
    fn number(p: u64) -> u64 {
        3 * p + 1
    }
    fn inside(p: u64) -> u64 {
        3 * p + 2
    }
    fn data(&self, i: u64) -> u64 {
        3 * self.procs + i
    }
    fn last(&self, p: u64) -> u64 {
        self.data(10 + self.width + p)
    }
    fn place(&self, at: u64) -> u64 {
        self.data(10 + self.width + self.procs + (2 + self.width) * at)
    }
}

impl Member<'_> {
    fn others(&self) -> impl Iterator<Item = u64> {
        let own = self.own;
        (0..self.table.procs).filter(move |j| *j != own)
    }

    /// Rereads its own words, and goes on from there to the section.
    fn lock(&mut self) -> Entry {
        let (t, own) = (self.table, self.own);
        let choosing = t.load(Table::choosing(own));
        let number = t.load(Table::number(own));
        let inside = t.load(Table::inside(own));
        let taken = match (choosing, number, inside) {
            (0, 0, 0) => self.doorway(true),
            (0, 0, _) => {
                t.store(Table::inside(own), 0);
                self.doorway(true)
            }
            (0, _, 0) => Some(number),
            (0, _, _) => {
                self.mended = false;
                return self.checked(Entry::OwnerDied);
            }
            (_, 0, _) => self.doorway(false),
            (_, _, _) => {
                t.store(Table::choosing(own), 0);
                Some(number)
            }
        };
        let Some(number) = taken else {
            return Entry::NumbersSpent;
        };
        self.wait(number);
        t.store(Table::inside(own), 1);
        self.mended = true;
        self.checked(Entry::Clean)
    }

    /// The doorway: the number taken, if numbers are left.
    fn doorway(&self, open: bool) -> Option<u64> {
        let (t, own) = (self.table, self.own);
        if open {
            t.store(Table::choosing(own), 1);
        }
        let greatest = self.others().map(|j| t.load(Table::number(j))).max().unwrap_or(0);
        let taken = (greatest < LIMIT).then_some(greatest + 1);
        if let Some(number) = taken {
            t.store(Table::number(own), number);
        }
        t.store(Table::choosing(own), 0);
        taken
    }

    /// Looks at each other process until it isn't choosing, and weighs its number until that doesn't come first.
    fn wait(&self, number: u64) {
        let (t, own) = (self.table, self.own);
        let mut backoff = Backoff { step: 0 };
        for j in self.others() {
            while t.load(Table::choosing(j)) != 0 {
                backoff.snooze();
            }
            loop {
                let theirs = t.load(Table::number(j));
                if theirs == 0 || (number, own) < (theirs, j) {
                    break;
                }
                backoff.snooze();
            }
        }
    }

    /// The ruin check after an entry.
    fn checked(&mut self, entry: Entry) -> Entry {
        if self.table.load(self.table.data(RUINED)) == 1 {
            self.leave();
            return Entry::NotRecoverable;
        }
        entry
    }

    fn leave(&self) {
        self.table.store(Table::number(self.own), 0);
        self.table.store(Table::inside(self.own), 0);
    }

    fn unlock(&self) {
        if !self.mended {
            self.table.store(self.table.data(RUINED), 1);
        }
        self.leave();
    }

    /// Stores a message: whether it was the next one and there was room. No process crashes here, so none has to mend.
    fn append(&mut self, seq: u64, value: &[u64]) -> bool {
        if self.lock() != Entry::Clean {
            return false;
        }
        let t = self.table;
        let closed = t.load(t.data(CLOSED));
        let count = t.load(t.data(COUNT));
        let last = t.load(t.last(self.own));
        let may = seq == last + 1 && closed != 1 && count < CAP;
        if may {
            self.put(t.data(RECORD), count, seq, value);
            t.store(t.data(ARMED), 1);
            self.put(t.place(count), self.own, seq, value);
            t.store(t.last(self.own), seq);
            t.store(t.data(COUNT), count + 1);
            t.store(t.data(ARMED), 0);
        }
        self.unlock();
        may
    }

    /// Puts a row of words: its first, the message's number and its value.
    fn put(&self, at: u64, first: u64, seq: u64, value: &[u64]) {
        self.table.store(at, first);
        self.table.store(at + 1, seq);
        for (j, word) in value.iter().enumerate() {
            self.table.store(at + 2 + j as u64, *word);
        }
    }
}

/// How often a member entered in this number of rounds.
fn rounds_of(mut member: Member, rounds: u64) -> u64 {
    let mut entries = 0;
    for _ in 0..rounds {
        entries += (member.lock() == Entry::Clean) as u64;
        member.unlock();
    }
    entries
}

fn main() {
    let words: Vec<String> = env::args().collect();
    let numbers: Vec<u64> = words[2..].iter().map(|w| w.parse().unwrap()).collect();
    let (procs, second, rounds) = (numbers[0], numbers[1], numbers[2]);
    if words[1] == "append" {
        let table = Table::new(procs, second);
        let mut member = Member { table: &table, own: 0, mended: true };
        let value: Vec<u64> = (1..=second).collect();
        let stored = (1..=rounds).filter(|seq| member.append(*seq, &value)).count();
        println!("messages {stored}");
        return;
    }
    let table = Table::new(procs, 1);
    let member = |own| Member { table: &table, own, mended: true };
    let entries: u64 = thread::scope(|scope| {
        let others: Vec<_> = (1..second).map(|p| scope.spawn(move || rounds_of(member(p), rounds))).collect();
        rounds_of(member(0), rounds) + others.into_iter().map(|t| t.join().unwrap()).sum::<u64>()
    });
    println!("entries {entries}");
}
