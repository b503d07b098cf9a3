//! The words that the other files share: sizes, calls, deeds and answers, each with its name in the texts.

const MOST_PROCESSES: u64 = 64;
pub const MOST_LIMIT: u64 = 1 << 62;
pub const MOST_CAP: u64 = 65_536;

/// What a header names. The limit of a trace, which has none, is 1.
#[derive(Clone, Copy)]
pub struct Sizes {
    pub procs: u64,
    pub limit: u64,
    pub cap: u64,
    pub width: usize,
}

impl Sizes {
    /// Whether there is a world, or a judge, of these sizes.
    pub fn check(&self) -> Result<(), Refusal> {
        if !(1..=MOST_PROCESSES).contains(&self.procs) {
            Err(BAD_PROCS)
        } else if !(1..=MOST_LIMIT).contains(&self.limit) {
            Err(BAD_LIMIT)
        } else if !(1..=MOST_CAP).contains(&self.cap) {
            Err(BAD_CAP)
        } else {
            Ok(())
        }
    }
}

/// The lock, or what differs from it.
#[derive(Clone, Copy, PartialEq)]
pub enum Variant {
    Right,
    NoLook,
    NoTies,
    Renumber,
    ExitOnCrash,
    CountUp,
    LastSkipped,
}

impl Variant {
    pub fn named(name: &str) -> Option<Variant> {
        Some(match name {
            "right" => Variant::Right,
            "no-look" => Variant::NoLook,
            "no-ties" => Variant::NoTies,
            "renumber" => Variant::Renumber,
            "exit-on-crash" => Variant::ExitOnCrash,
            "count-up" => Variant::CountUp,
            "last-skipped" => Variant::LastSkipped,
            _ => return None,
        })
    }
}

/// A refusal's number.
pub type Refusal = u8;

const BAD_PROCS: Refusal = 1;
const BAD_LIMIT: Refusal = 2;
pub const NO_SUCH_PROCESS: Refusal = 3;
pub const CALL_UNDER_WAY: Refusal = 4;
pub const NOT_OWNER: Refusal = 5;
pub const ALREADY_IN: Refusal = 6;
pub const NOTHING_TO_DO: Refusal = 7;
const BAD_CAP: Refusal = 8;
pub const NOT_INCONSISTENT: Refusal = 10;
pub const UNMENDED: Refusal = 12;
pub const BAD_INDEX: Refusal = 13;
pub const NOT_WAITING: Refusal = 14;

#[derive(Clone, Copy, PartialEq)]
pub enum Call {
    Lock,
    Unlock,
    Consistent,
    Recover,
    Withdraw,
    Append,
    Close,
    Get,
    Put,
}

impl Call {
    pub fn name(self) -> &'static str {
        match self {
            Call::Lock => "lock",
            Call::Unlock => "unlock",
            Call::Consistent => "consistent",
            Call::Recover => "recover",
            Call::Withdraw => "withdraw",
            Call::Append => "append",
            Call::Close => "close",
            Call::Get => "get",
            Call::Put => "put",
        }
    }
}

/// What a deed does. Its process, its place and its message stand beside it.
#[derive(Clone, Copy, PartialEq)]
pub enum Act {
    Begin,
    Ready,
    Enter,
    Crash,
    Reenter,
    Leave,
    Quit,
    Commit,
    Show,
    Close,
    Ruin,
}

impl Act {
    pub fn name(self) -> &'static str {
        match self {
            Act::Begin => "begin",
            Act::Ready => "ready",
            Act::Enter => "enter",
            Act::Crash => "crash",
            Act::Reenter => "reenter",
            Act::Leave => "leave",
            Act::Quit => "quit",
            Act::Commit => "commit",
            Act::Show => "show",
            Act::Close => "close",
            Act::Ruin => "ruin",
        }
    }
}

/// How a call ends.
#[derive(Clone, Copy, PartialEq)]
pub enum Answer {
    Clean,
    OwnerDied,
    NumbersSpent,
    NotRecoverable,
    Unlocked,
    Withdrawn,
    FoundIdle,
    FoundLeft,
    FoundDoorway,
    FoundWaiting,
    FoundInside,
    Stored,
    Already,
    OutOfOrder,
    Full,
    Closed,
    ClosedNow,
    AlreadyClosed,
    Mended,
    NothingToMend,
    Word,
    Put,
}

impl Answer {
    pub fn name(self) -> &'static str {
        match self {
            Answer::Clean => "clean",
            Answer::OwnerDied => "owner-died",
            Answer::NumbersSpent => "numbers-spent",
            Answer::NotRecoverable => "not-recoverable",
            Answer::Unlocked => "unlocked",
            Answer::Withdrawn => "withdrawn",
            Answer::FoundIdle => "found idle",
            Answer::FoundLeft => "found left",
            Answer::FoundDoorway => "found doorway",
            Answer::FoundWaiting => "found waiting",
            Answer::FoundInside => "found inside",
            Answer::Stored => "stored",
            Answer::Already => "already",
            Answer::OutOfOrder => "out-of-order",
            Answer::Full => "full",
            Answer::Closed => "closed",
            Answer::ClosedNow => "closed-now",
            Answer::AlreadyClosed => "already-closed",
            Answer::Mended => "mended",
            Answer::NothingToMend => "nothing-to-mend",
            Answer::Word => "word",
            Answer::Put => "put",
        }
    }
}
