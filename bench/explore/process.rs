//! One process of the right lock, with its scripts on the data words.

pub const RUINED: u8 = 0;
pub const CLOSED: u8 = 1;
pub const COUNT: u8 = 2;
pub const ARMED: u8 = 3;
pub const RECORD: u8 = 4;

#[derive(Clone, Copy)]
pub struct Layout {
    pub procs: u8,
    pub cap: u8,
}

impl Layout {
    pub fn last(self, p: u8) -> u8 {
        11 + p
    }

    pub fn place(self, at: u8, k: u8) -> u8 {
        11 + self.procs + at * 3 + k
    }
}

#[derive(Clone, Copy, PartialEq, Eq, Hash)]
pub enum Call {
    Lock,
    Unlock,
    Recover,
    Consistent,
    Withdraw,
    Close,
    Append(u8, u8),
}

#[derive(Clone, Copy, PartialEq, Eq, Hash)]
pub enum Core {
    Lock,
    Recover,
    Unlock,
}

#[derive(Clone, Copy, PartialEq, Eq, Hash)]
pub enum Stage {
    Rest,
    Dead,
    Reread0(Core),
    Reread1(Core, u8),
    Reread2(Core, u8, u8),
    Opening,
    Door(u8, u8),
    Shutting(Core, u8),
    Wait(u8, u8, bool),
    Inside,
    Leaving,
    Withdrawing,
    Unmarking(Core),
}

#[derive(Clone, Copy, PartialEq, Eq)]
pub enum Word {
    Choosing(u8),
    Number(u8),
    Inside(u8),
    Data(u8),
}

#[derive(Clone, Copy, PartialEq, Eq)]
pub enum Kind {
    Reread,
    Take,
    Shut,
    Look,
    Weigh,
    Other,
}

#[derive(Clone, Copy, PartialEq, Eq)]
pub enum Access {
    Load(Kind, Word),
    Store(Kind, Word, u8),
}

#[derive(Clone, Copy, PartialEq, Eq)]
pub enum Outer {
    Begin,
    Ready,
    Enter,
    Crash,
    Reenter,
    Leave,
    Quit,
}

#[derive(Clone, Copy, PartialEq, Eq, Hash)]
pub enum Why {
    Checking,
    Ruining,
    Mending,
    Closing,
    Appending(u8, u8),
}

#[derive(Clone, Copy, PartialEq, Eq, Hash)]
pub enum Reply {
    Stored,
    Mended(bool),
    Ruined(bool),
    Other,
}

#[derive(Clone, Copy, PartialEq, Eq, Hash)]
pub enum Job {
    AskClosed(u8, u8),
    AskCount(u8, u8, u8),
    AskLast(u8, u8, u8, u8),
    AskArmed,
    AskAt,
    AskSeq(u8),
    AskValue(u8, u8),
    Write(u8, u8, u8, u8, Reply),
    AskOpen,
    PutClosed,
    PutRuined,
    AskRuined,
    Ended(Reply),
}

#[derive(Clone, Copy, PartialEq, Eq, Hash)]
pub enum Errand {
    Free,
    Asking,
    Doing(Why, Job),
}

#[derive(Clone, Copy, PartialEq, Eq, Hash)]
pub struct Process {
    pub stage: Stage,
    pub mended: bool,
    pub barred: bool,
    pub errand: Errand,
}

/// What a step is for others, and whether it ends its call.
#[derive(Clone, Copy)]
pub struct Outcome {
    pub outer: Option<Outer>,
    pub answered: bool,
}

pub const SILENT: Outcome = Outcome { outer: None, answered: false };

const ENDED: Outcome = Outcome { outer: None, answered: true };

fn outer(outer: Outer, answered: bool) -> Outcome {
    Outcome { outer: Some(outer), answered }
}

impl Job {
    fn next(self, layout: Layout, p: u8) -> Option<Access> {
        let get = |i| Some(Access::Load(Kind::Other, Word::Data(i)));
        let put = |i, v| Some(Access::Store(Kind::Other, Word::Data(i), v));
        match self {
            Job::AskClosed(..) | Job::AskOpen => get(CLOSED),
            Job::AskCount(..) => get(COUNT),
            Job::AskLast(..) => get(layout.last(p)),
            Job::AskArmed => get(ARMED),
            Job::AskAt => get(RECORD),
            Job::AskSeq(_) => get(RECORD + 1),
            Job::AskValue(..) => get(RECORD + 2),
            Job::PutClosed => put(CLOSED, 1),
            Job::PutRuined => put(RUINED, 1),
            Job::AskRuined => get(RUINED),
            Job::Ended(_) => None,
            Job::Write(at, seq, value, step, _) => match step {
                0 => put(RECORD, at),
                1 => put(RECORD + 1, seq),
                2 => put(RECORD + 2, value),
                3 => put(ARMED, 1),
                4 => put(layout.place(at, 0), p),
                5 => put(layout.place(at, 1), seq),
                6 => put(layout.place(at, 2), value),
                7 => put(layout.last(p), seq),
                8 => put(COUNT, at.saturating_add(1)),
                _ => put(ARMED, 0),
            },
        }
    }

    fn after(self, layout: Layout, word: u8) -> Job {
        match self {
            Job::AskClosed(seq, value) => Job::AskCount(seq, value, word),
            Job::AskCount(seq, value, closed) => Job::AskLast(seq, value, closed, word),
            Job::AskLast(seq, value, closed, count) => {
                let last = word;
                if seq == 0 || seq <= last || seq - 1 > last || closed == 1 || count == layout.cap {
                    Job::Ended(Reply::Other)
                } else {
                    Job::Write(count, seq, value, 0, Reply::Stored)
                }
            }
            Job::AskArmed if word == 0 => Job::Ended(Reply::Mended(false)),
            Job::AskArmed => Job::AskAt,
            Job::AskAt => Job::AskSeq(word),
            Job::AskSeq(at) => Job::AskValue(at, word),
            Job::AskValue(at, seq) => Job::Write(at, seq, word, 4, Reply::Mended(true)),
            Job::Write(at, seq, value, step, reply) if step < 9 => Job::Write(at, seq, value, step + 1, reply),
            Job::Write(.., reply) => Job::Ended(reply),
            Job::AskOpen if word == 1 => Job::Ended(Reply::Other),
            Job::AskOpen => Job::PutClosed,
            Job::PutClosed | Job::PutRuined => Job::Ended(Reply::Other),
            Job::AskRuined => Job::Ended(Reply::Ruined(word == 1)),
            Job::Ended(reply) => Job::Ended(reply),
        }
    }
}

impl Process {
    pub fn new() -> Process {
        Process { stage: Stage::Rest, mended: true, barred: false, errand: Errand::Free }
    }

    pub fn crash(&mut self) {
        *self = Process { stage: Stage::Dead, ..Process::new() };
    }

    /// Gives the dead variables their first values: `barred`, which an answer alone reads, and `mended` outside, where no
    /// script is under way.
    pub fn forget(&mut self) {
        self.barred = false;
        if self.errand == Errand::Free && self.stage != Stage::Inside {
            self.mended = true;
        }
    }

    fn first(from: u8, p: u8, procs: u8) -> Option<u8> {
        let j = if from == p { from + 1 } else { from };
        (j < procs).then_some(j)
    }

    fn lock_next(&self, layout: Layout, limit: u8, p: u8) -> Option<Access> {
        use {Access::Load, Access::Store};
        match self.stage {
            Stage::Rest | Stage::Dead | Stage::Inside => None,
            Stage::Reread0(_) => Some(Load(Kind::Reread, Word::Choosing(p))),
            Stage::Reread1(..) => Some(Load(Kind::Reread, Word::Number(p))),
            Stage::Reread2(..) => Some(Load(Kind::Reread, Word::Inside(p))),
            Stage::Opening => Some(Store(Kind::Other, Word::Choosing(p), 1)),
            Stage::Door(next, greatest) => match Process::first(next, p, layout.procs) {
                Some(j) => Some(Load(Kind::Other, Word::Number(j))),
                None if greatest < limit => Some(Store(Kind::Take, Word::Number(p), greatest + 1)),
                None => Some(Store(Kind::Shut, Word::Choosing(p), 0)),
            },
            Stage::Shutting(..) => Some(Store(Kind::Shut, Word::Choosing(p), 0)),
            Stage::Wait(_, next, looked) => match Process::first(next, p, layout.procs) {
                Some(j) if looked => Some(Load(Kind::Weigh, Word::Number(j))),
                Some(j) => Some(Load(Kind::Look, Word::Choosing(j))),
                None => Some(Store(Kind::Other, Word::Inside(p), 1)),
            },
            Stage::Leaving | Stage::Withdrawing => Some(Store(Kind::Other, Word::Number(p), 0)),
            Stage::Unmarking(_) => Some(Store(Kind::Other, Word::Inside(p), 0)),
        }
    }

    pub fn next(&self, layout: Layout, limit: u8, p: u8) -> Option<Access> {
        match self.errand {
            Errand::Free => self.lock_next(layout, limit, p),
            Errand::Asking => Some(Access::Load(Kind::Other, Word::Data(RUINED))),
            Errand::Doing(_, job) => job.next(layout, p),
        }
    }

    /// What a step with this value would be: whether it enters again, and nothing is taken.
    pub fn reenters(&self, value: u8) -> bool {
        self.errand == Errand::Free && matches!(self.stage, Stage::Reread2(_, 0, k) if k > 0 && value > 0)
    }

    pub fn start(&mut self, call: Call) -> bool {
        let idle = self.errand == Errand::Free && matches!(self.stage, Stage::Rest | Stage::Dead | Stage::Inside);
        let inside = idle && self.stage == Stage::Inside;
        let may = match call {
            Call::Withdraw => matches!(self.stage, Stage::Wait(..)),
            Call::Lock | Call::Recover => idle && !inside,
            Call::Unlock => inside,
            Call::Consistent => inside && !self.mended,
            Call::Append(..) | Call::Close => inside && self.mended,
        };
        if !may {
            return false;
        }
        self.barred = false;
        match call {
            Call::Lock => self.stage = Stage::Reread0(Core::Lock),
            Call::Recover => self.stage = Stage::Reread0(Core::Recover),
            Call::Withdraw => self.stage = Stage::Withdrawing,
            Call::Unlock if self.mended => self.stage = Stage::Leaving,
            Call::Unlock => self.errand = Errand::Doing(Why::Ruining, Job::PutRuined),
            Call::Consistent => self.errand = Errand::Asking,
            Call::Close => self.errand = Errand::Doing(Why::Closing, Job::AskOpen),
            Call::Append(seq, value) => self.errand = Errand::Doing(Why::Appending(seq, value), Job::AskClosed(seq, value)),
        }
        true
    }

    pub fn feed(&mut self, layout: Layout, limit: u8, p: u8, value: u8) -> Outcome {
        match self.errand {
            Errand::Free => self.lock_feed(layout, limit, p, value),
            Errand::Asking if value == 1 => {
                self.errand = Errand::Free;
                ENDED
            }
            Errand::Asking => {
                self.errand = Errand::Doing(Why::Mending, Job::AskArmed);
                SILENT
            }
            Errand::Doing(why, job) => match job.after(layout, value) {
                Job::Ended(reply) => self.end(why, reply),
                job => {
                    self.errand = Errand::Doing(why, job);
                    SILENT
                }
            },
        }
    }

    fn end(&mut self, why: Why, reply: Reply) -> Outcome {
        self.errand = Errand::Free;
        match (why, reply) {
            (Why::Checking, Reply::Ruined(true)) => {
                self.stage = Stage::Leaving;
                self.barred = true;
                return SILENT;
            }
            (Why::Ruining, _) => {
                self.stage = Stage::Leaving;
                return SILENT;
            }
            (Why::Mending, Reply::Mended(_)) => self.mended = true,
            _ => {}
        }
        ENDED
    }

    /// Inside: by the line, or again; by a lock the ruin check comes next.
    fn enter(&mut self, by_line: bool, checks: bool, deed: Outer) -> Outcome {
        self.stage = Stage::Inside;
        self.mended = by_line;
        if checks {
            self.errand = Errand::Doing(Why::Checking, Job::AskRuined);
        }
        outer(deed, !checks)
    }

    fn lock_feed(&mut self, layout: Layout, limit: u8, p: u8, value: u8) -> Outcome {
        let (stage, outcome) = match self.stage {
            Stage::Rest | Stage::Dead | Stage::Inside => (self.stage, SILENT),
            Stage::Reread0(call) => (Stage::Reread1(call, value), SILENT),
            Stage::Reread1(call, choosing) => (Stage::Reread2(call, choosing, value), SILENT),
            Stage::Reread2(call, 0, k) if k > 0 && value > 0 => return self.enter(false, call == Core::Lock, Outer::Reenter),
            Stage::Reread2(Core::Lock, choosing, k) => (Process::relocked(choosing, k, value), SILENT),
            Stage::Reread2(call, choosing, k) => match (choosing, k, value) {
                (0, 0, i) if i > 0 => (Stage::Unmarking(call), SILENT),
                (c, k, _) if c > 0 && k > 0 => (Stage::Shutting(call, k), SILENT),
                _ => (Stage::Rest, ENDED),
            },
            Stage::Opening => (Stage::Door(0, 0), outer(Outer::Begin, false)),
            Stage::Door(next, greatest) => match Process::first(next, p, layout.procs) {
                Some(j) => (Stage::Door(j + 1, greatest.max(value)), SILENT),
                None if greatest < limit => (Stage::Shutting(Core::Lock, greatest + 1), outer(Outer::Ready, false)),
                None => (Stage::Rest, outer(Outer::Quit, true)),
            },
            Stage::Shutting(Core::Lock, number) => (Stage::Wait(number, 0, false), SILENT),
            Stage::Shutting(..) => (Stage::Rest, ENDED),
            Stage::Wait(number, next, looked) => match Process::first(next, p, layout.procs) {
                Some(j) if looked && (value == 0 || (number, p) < (value, j)) => (Stage::Wait(number, j + 1, false), SILENT),
                Some(_) if looked || value != 0 => (self.stage, SILENT),
                Some(_) => (Stage::Wait(number, next, true), SILENT),
                None => return self.enter(true, true, Outer::Enter),
            },
            Stage::Leaving => (Stage::Unmarking(Core::Unlock), outer(Outer::Leave, false)),
            Stage::Withdrawing => (Stage::Rest, outer(Outer::Quit, true)),
            Stage::Unmarking(Core::Lock) => (Stage::Opening, SILENT),
            Stage::Unmarking(_) => (Stage::Rest, ENDED),
        };
        self.stage = stage;
        outcome
    }

    fn relocked(choosing: u8, number: u8, inside: u8) -> Stage {
        match (choosing, number, inside) {
            (0, 0, 0) => Stage::Opening,
            (0, 0, _) => Stage::Unmarking(Core::Lock),
            (0, k, _) => Stage::Wait(k, 0, false),
            (_, 0, _) => Stage::Door(0, 0),
            (_, k, _) => Stage::Shutting(Core::Lock, k),
        }
    }
}
