//! The mailbox: its data words, and the steps of its tasks, each of which gets or puts one of them.

use crate::terms::*;
use crate::world::{Aim, Next, Process, Told};

// The first data words. After them stand the record, the board, what each sent last, and the places.
const RUINED: usize = 0;
const CLOSED: usize = 1;
const COUNT: usize = 2;
const ARMED: usize = 3;
/// The record: a place, a number and the words of a value.
const RECORD: usize = 4;

pub const BOARD_WORDS: u64 = 4;

pub struct Mail {
    pub width: usize,
    procs: usize,
    cap: u64,
    variant: Variant,
    words: Vec<u64>,
}

impl Mail {
    pub fn new(sizes: Sizes, variant: Variant) -> Mail {
        let (width, procs) = (sizes.width, sizes.procs as usize);
        let words = vec![0; 10 + width + procs + (2 + width) * sizes.cap as usize];
        Mail { width, procs, cap: sizes.cap, variant, words }
    }

    pub fn ruined(&self) -> u64 {
        self.words[RUINED]
    }

    pub fn closed(&self) -> u64 {
        self.words[CLOSED]
    }

    pub fn count(&self) -> u64 {
        self.words[COUNT]
    }

    /// The number and the value in the record.
    pub fn message(&self) -> &[u64] {
        &self.words[RECORD + 1..][..1 + self.width]
    }

    /// The sender, the number and the value at a place.
    pub fn entry(&self, place: u64) -> &[u64] {
        &self.words[self.place(place)..][..2 + self.width]
    }

    fn board(&self, index: u64) -> usize {
        6 + self.width + index as usize
    }

    fn last(&self, p: u64) -> usize {
        10 + self.width + p as usize
    }

    fn place(&self, place: u64) -> usize {
        10 + self.width + self.procs + (2 + self.width) * place as usize
    }

    /// Puts a word. The deed is done only where another word stood there.
    fn put(&mut self, at: usize, word: u64, act: Act) -> Option<Act> {
        let before = std::mem::replace(&mut self.words[at], word);
        (before != word).then_some(act)
    }
}

/// A task's memory: how many words of a row it has gone over, whether it read closed as 1, and a record.
#[derive(Clone, Copy, Default)]
pub struct Job {
    pub done: usize,
    pub closed: bool,
    pub record: [u64; 10],
}

impl Process {
    /// A step of a task.
    pub fn work(&mut self, p: u64, mail: &mut Mail) -> Told {
        match self.next {
            Next::Check => self.check(mail),
            Next::GetRuined if mail.words[RUINED] == 1 => self.end(Next::Inside, Answer::NotRecoverable),
            Next::GetRuined => self.go(Next::GetArmed),
            Next::GetArmed => self.get_armed(mail),
            Next::GetCountUp => self.get_count_up(mail),
            Next::GetRecord => self.get_record(mail),
            Next::GetClosed => self.get_closed(mail),
            Next::GetCount => self.get_count(mail),
            Next::GetLast => self.get_last(p, mail),
            Next::PutRecord => self.put_record(mail),
            Next::Arm => self.arm(mail),
            Next::PutEntry => self.put_entry(p, mail),
            Next::PutLast => self.put_last(p, mail),
            Next::PutCount => self.put_count(mail),
            Next::Disarm => self.disarm(mail),
            Next::AskClosed if mail.words[CLOSED] == 1 => self.end(Next::Inside, Answer::AlreadyClosed),
            Next::AskClosed => self.go(Next::PutClosed),
            Next::PutClosed => self.put_closed(mail),
            Next::GetBoard => self.get_board(mail),
            Next::PutBoard => self.put_board(mail),
            Next::PutRuined => self.ruin(mail),
            _ => unreachable!("a step of the lock"),
        }
    }

    /// Whether the lock is ruined, asked after an entry.
    fn check(&mut self, mail: &Mail) -> Told {
        if mail.words[RUINED] == 1 {
            self.aim = Aim::Barred;
            return self.go(Next::Drop);
        }
        self.end(Next::Inside, if self.mended { Answer::Clean } else { Answer::OwnerDied })
    }

    fn ruin(&mut self, mail: &mut Mail) -> Told {
        self.next = Next::Drop;
        Told { act: mail.put(RUINED, 1, Act::Ruin), answer: None }
    }

    /// Whether a message was left half stored.
    fn get_armed(&mut self, mail: &Mail) -> Told {
        if mail.words[ARMED] == 0 {
            self.mended = true;
            return self.end(Next::Inside, Answer::NothingToMend);
        }
        self.go_over(Next::GetRecord)
    }

    /// Goes to the first of a row of words.
    fn go_over(&mut self, row: Next) -> Told {
        self.job.done = 0;
        self.go(row)
    }

    /// Goes on to the next word of a row, or past the row.
    fn go_on(&mut self, mail: &Mail, behind: Next) -> Told {
        self.job.done += 1;
        if self.job.done == 2 + mail.width {
            return self.go_over(behind);
        }
        Told::NOTHING
    }

    fn get_record(&mut self, mail: &Mail) -> Told {
        let at = self.job.done;
        self.job.record[at] = mail.words[RECORD + at];
        self.go_on(mail, Next::PutEntry)
    }

    fn get_closed(&mut self, mail: &Mail) -> Told {
        self.job.closed = mail.words[CLOSED] == 1;
        self.go(Next::GetCount)
    }

    fn get_count(&mut self, mail: &Mail) -> Told {
        self.job.record[0] = mail.words[COUNT];
        self.go(Next::GetLast)
    }

    /// Decides whether a message is stored.
    fn get_last(&mut self, p: u64, mail: &Mail) -> Told {
        let last = mail.words[mail.last(p)];
        let [count, seq, ..] = self.job.record;
        let refused = match seq {
            0 => Answer::OutOfOrder,
            _ if seq <= last => Answer::Already,
            _ if seq > last + 1 => Answer::OutOfOrder,
            _ if self.job.closed => Answer::Closed,
            _ if count == mail.cap => Answer::Full,
            _ => return self.go_over(Next::PutRecord),
        };
        self.end(Next::Inside, refused)
    }

    fn put_record(&mut self, mail: &mut Mail) -> Told {
        let at = self.job.done;
        mail.words[RECORD + at] = self.job.record[at];
        self.go_on(mail, Next::Arm)
    }

    /// Commits the message in the record.
    fn arm(&mut self, mail: &mut Mail) -> Told {
        self.go_over(Next::PutEntry);
        Told { act: mail.put(ARMED, 1, Act::Commit), answer: None }
    }

    fn put_entry(&mut self, p: u64, mail: &mut Mail) -> Told {
        let at = mail.place(self.job.record[0]) + self.job.done;
        mail.words[at] = if self.job.done == 0 { p } else { self.job.record[self.job.done] };
        let skips = !self.mended && mail.variant == Variant::LastSkipped;
        self.go_on(mail, if skips { Next::PutCount } else { Next::PutLast })
    }

    fn put_last(&mut self, p: u64, mail: &mut Mail) -> Told {
        let at = mail.last(p);
        mail.words[at] = self.job.record[1];
        let counts = !self.mended && mail.variant == Variant::CountUp;
        self.go(if counts { Next::GetCountUp } else { Next::PutCount })
    }

    /// A repair of the variant count-up: one more than the count, which stays where it is the capacity.
    fn get_count_up(&mut self, mail: &Mail) -> Told {
        self.job.record[0] = mail.words[COUNT].min(mail.cap - 1);
        self.go(Next::PutCount)
    }

    fn put_count(&mut self, mail: &mut Mail) -> Told {
        self.next = Next::Disarm;
        Told { act: mail.put(COUNT, self.job.record[0] + 1, Act::Show), answer: None }
    }

    /// Ends an append, or the repair of one: only a holder with nothing to mend may append.
    fn disarm(&mut self, mail: &mut Mail) -> Told {
        mail.words[ARMED] = 0;
        let mended = std::mem::replace(&mut self.mended, true);
        self.end(Next::Inside, if mended { Answer::Stored } else { Answer::Mended })
    }

    fn put_closed(&mut self, mail: &mut Mail) -> Told {
        self.next = Next::Inside;
        Told { act: mail.put(CLOSED, 1, Act::Close), answer: Some(Answer::ClosedNow) }
    }

    /// Reads a word of the board into the job.
    fn get_board(&mut self, mail: &Mail) -> Told {
        self.job.record[0] = mail.words[mail.board(self.job.record[0])];
        self.end(Next::Inside, Answer::Word)
    }

    fn put_board(&mut self, mail: &mut Mail) -> Told {
        let [index, word, ..] = self.job.record;
        let at = mail.board(index);
        mail.words[at] = word;
        self.end(Next::Inside, Answer::Put)
    }
}
