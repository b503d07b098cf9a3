//! The simulated world: its words, what each process does next, and which calls it may start.

use crate::judge::Matter;
use crate::mail::{BOARD_WORDS, Job, Mail};
use crate::terms::*;

/// The next step of a process. One that rests, is dead, or is inside without a task has none.
///
/// After the last process of its scan, a `Peek` is the taking of a number, and a `Look` the entry.
#[derive(Clone, Copy, PartialEq, PartialOrd)]
pub enum Next {
    Rest,
    Dead,
    Inside,
    ReadChoosing,
    ReadNumber,
    ReadInside,
    Open,
    Peek,
    Shut,
    Look,
    Weigh,
    Drop,
    Withdraw,
    Unmark,
    Check,
    GetRuined,
    GetCountUp,
    GetArmed,
    GetRecord,
    GetClosed,
    GetCount,
    GetLast,
    PutRecord,
    Arm,
    PutEntry,
    PutLast,
    PutCount,
    Disarm,
    AskClosed,
    PutClosed,
    GetBoard,
    PutBoard,
    PutRuined,
}

/// Why a process goes through the steps of the lock. A barred one found the lock ruined.
#[derive(Clone, Copy, PartialEq)]
pub enum Aim {
    Lock,
    Recover,
    Unlock,
    Barred,
}

/// The words of a process that others read.
#[derive(Clone, Copy, Default)]
pub struct Own {
    pub choosing: u64,
    pub number: u64,
    pub inside: u64,
}

/// What a process loses by a crash.
#[derive(Clone)]
pub struct Process {
    pub next: Next,
    pub aim: Aim,
    pub mended: bool,
    /// How far a scan has come, and the greatest number that it read.
    pub scanned: usize,
    pub greatest: u64,
    pub job: Job,
}

/// What a step tells: its deed, and the answer of its call.
#[derive(Clone, Copy)]
pub struct Told {
    pub act: Option<Act>,
    pub answer: Option<Answer>,
}

impl Told {
    pub const NOTHING: Told = Told { act: None, answer: None };

    pub fn act(act: Act) -> Told {
        Told { act: Some(act), answer: None }
    }

    pub fn answer(answer: Answer) -> Told {
        Told { act: None, answer: Some(answer) }
    }
}

pub struct World {
    pub limit: u64,
    pub variant: Variant,
    pub lock: Vec<Own>,
    pub processes: Vec<Process>,
    pub mail: Mail,
}

impl World {
    /// A world whose words are all 0, of sizes that were checked.
    pub fn new(sizes: Sizes, variant: Variant) -> World {
        World {
            limit: sizes.limit,
            variant,
            lock: vec![Own::default(); sizes.procs as usize],
            processes: vec![Process::idle(); sizes.procs as usize],
            mail: Mail::new(sizes, variant),
        }
    }

    /// What a deed that was just done speaks of: the message in the record, and the place where the last one is shown.
    pub fn matter(&self, act: Act) -> Matter<'_> {
        match act {
            Act::Commit => Matter { place: 0, message: self.mail.message() },
            Act::Show => Matter { place: self.mail.count() - 1, message: self.mail.message() },
            _ => Matter::NONE,
        }
    }

    pub fn crash(&mut self, p: u64) -> Result<(), Refusal> {
        let process = self.processes.get_mut(p as usize).ok_or(NO_SUCH_PROCESS)?;
        process.next = Next::Dead;
        Ok(())
    }

    /// Starts a call. The numbers are those after the process in the call's line.
    pub fn start(&mut self, p: u64, call: Call, numbers: &[u64]) -> Result<(), Refusal> {
        let process = self.processes.get_mut(p as usize).ok_or(NO_SUCH_PROCESS)?;
        process.may_start(call, numbers)?;
        process.next = match call {
            Call::Lock | Call::Recover => Next::ReadChoosing,
            Call::Withdraw => Next::Withdraw,
            Call::Unlock if process.mended => Next::Drop,
            Call::Unlock => Next::PutRuined,
            Call::Consistent => Next::GetRuined,
            Call::Append => Next::GetClosed,
            Call::Close => Next::AskClosed,
            Call::Get => Next::GetBoard,
            Call::Put => Next::PutBoard,
        };
        match call {
            Call::Lock => process.aim = Aim::Lock,
            Call::Recover => process.aim = Aim::Recover,
            Call::Unlock => process.aim = Aim::Unlock,
            Call::Append => {
                let message = 1 + self.mail.width;
                process.job.record[1..][..message].copy_from_slice(&numbers[..message]);
            }
            Call::Get => process.job.record[0] = numbers[0],
            Call::Put => process.job.record[..2].copy_from_slice(&numbers[..2]),
            _ => {}
        }
        Ok(())
    }
}

impl Process {
    fn idle() -> Process {
        let job = Job::default();
        Process { next: Next::Rest, aim: Aim::Lock, mended: true, scanned: 0, greatest: 0, job }
    }

    /// Whether no call of it is under way.
    pub fn is_idle(&self) -> bool {
        self.next <= Next::Inside
    }

    /// Whether it waits for others, after the doorway.
    pub fn waits(&self) -> bool {
        matches!(self.next, Next::Look | Next::Weigh)
    }

    fn may_start(&self, call: Call, numbers: &[u64]) -> Result<(), Refusal> {
        if call == Call::Withdraw {
            return if self.waits() { Ok(()) } else { Err(NOT_WAITING) };
        }
        if !self.is_idle() {
            return Err(CALL_UNDER_WAY);
        }
        let inside = self.next == Next::Inside;
        match call {
            Call::Lock | Call::Recover if inside => Err(ALREADY_IN),
            Call::Lock | Call::Recover => Ok(()),
            _ if !inside => Err(NOT_OWNER),
            Call::Consistent if self.mended => Err(NOT_INCONSISTENT),
            Call::Append | Call::Close if !self.mended => Err(UNMENDED),
            Call::Get | Call::Put if numbers[0] >= BOARD_WORDS => Err(BAD_INDEX),
            _ => Ok(()),
        }
    }
}
