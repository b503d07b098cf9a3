//! Processes that lock, mend, append once and unlock, again and again, in whatever order they are moved.

use crate::report;
use crate::terms::*;
use crate::world::{Next, Told, World};

/// A move, and the line of a schedule that it is.
#[derive(Clone, Copy)]
pub enum Move {
    Crash,
    CrashAll,
    Step,
    /// The start of a call. An append has this number, and the same as its value.
    Start(Call, u64),
}

impl Move {
    pub fn write(self, p: u64, out: &mut Vec<u8>) {
        match self {
            Move::Crash => report::line(out, "crash", &[p]),
            Move::CrashAll => report::line(out, "crash all", &[]),
            Move::Step => report::line(out, "step", &[p]),
            Move::Start(Call::Append, number) => report::line(out, Call::Append.name(), &[p, number, number]),
            Move::Start(call, _) => report::line(out, call.name(), &[p]),
        }
    }

    /// Writes the move as one character, by its process: `012` a step, `xyz` a crash, `lmn` lock, `fgh` consistent, `abc`
    /// append, and then its number from `A` on, `uvw` unlock. The hunts start no other calls. `*` is a crash of all.
    pub fn write_letter(self, p: u64, out: &mut Vec<u8>) {
        let letters = match self {
            Move::Step => b"012",
            Move::Crash => b"xyz",
            Move::CrashAll => b"***",
            Move::Start(Call::Lock, _) => b"lmn",
            Move::Start(Call::Consistent, _) => b"fgh",
            Move::Start(Call::Append, _) => b"abc",
            Move::Start(..) => b"uvw",
        };
        out.push(letters[p as usize]);
        if let Move::Start(Call::Append, number) = self {
            out.push(b'@' + number as u8);
        }
    }
}

/// What a walk keeps of a process: whether it has appended since it came in, and its next number.
#[derive(Clone, Copy)]
struct Sent {
    appended: bool,
    next: u64,
}

pub struct Walk {
    pub world: World,
    sent: Vec<Sent>,
}

impl Walk {
    pub fn new(sizes: Sizes, variant: Variant) -> Walk {
        let sent = vec![Sent { appended: false, next: 1 }; sizes.procs as usize];
        Walk { world: World::new(sizes, variant), sent }
    }

    /// Moves a process. Hands on the move, and answers the deed that it was.
    #[inline]
    pub fn go(&mut self, p: u64, crashes: bool, see: impl FnOnce(Move)) -> Option<Act> {
        if crashes {
            see(Move::Crash);
            return self.world.crash(p).ok().map(|()| Act::Crash);
        }
        if self.world.processes[p as usize].is_idle() {
            see(self.start(p));
            return None;
        }
        see(Move::Step);
        let told = self.world.step(p).unwrap_or(Told::NOTHING);
        if let Some(answer) = told.answer {
            self.hear(p, answer);
        }
        told.act
    }

    fn start(&mut self, p: u64) -> Move {
        let process = &self.world.processes[p as usize];
        let Sent { appended, next } = self.sent[p as usize];
        let call = match process.next {
            Next::Inside if !process.mended => Call::Consistent,
            Next::Inside if !appended => Call::Append,
            Next::Inside => Call::Unlock,
            _ => Call::Lock,
        };
        self.world.start(p, call, &[next; 2]).expect("a start");
        Move::Start(call, next)
    }

    fn hear(&mut self, p: u64, answer: Answer) {
        let sent = &mut self.sent[p as usize];
        match answer {
            Answer::Clean | Answer::OwnerDied => sent.appended = false,
            Answer::Stored | Answer::Already => *sent = Sent { appended: true, next: sent.next + 1 },
            Answer::OutOfOrder | Answer::Full | Answer::Closed => sent.appended = true,
            _ => {}
        }
    }
}
