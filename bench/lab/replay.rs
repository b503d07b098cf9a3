//! A schedule played to its report.

use crate::fault::Fault;
use crate::judge::Judge;
use crate::line::{Form, Numbers, Reader, first_of};
use crate::report;
use crate::terms::*;
use crate::words;
use crate::world::{Told, World};

/// What a line of a schedule does.
#[derive(Clone, Copy)]
enum Command {
    Step,
    Crash,
    Start(Call),
}

impl Form for Command {
    #[inline]
    fn named(text: &[u8]) -> Option<(Command, &[u8])> {
        first_of!(text,
            b"step " => Command::Step,
            b"lock " => Command::Start(Call::Lock),
            b"append " => Command::Start(Call::Append),
            b"unlock " => Command::Start(Call::Unlock),
            b"crash " => Command::Crash,
            b"consistent " => Command::Start(Call::Consistent),
            b"recover " => Command::Start(Call::Recover),
            b"withdraw " => Command::Start(Call::Withdraw),
            b"close " => Command::Start(Call::Close),
            b"get " => Command::Start(Call::Get),
            b"put " => Command::Start(Call::Put),
        )
    }

    fn numbers(self, width: usize) -> usize {
        match self {
            Command::Start(Call::Append) => 1 + width,
            Command::Start(Call::Put) => 2,
            Command::Start(Call::Get) => 1,
            _ => 0,
        }
    }

    fn may_count(self) -> bool {
        matches!(self, Command::Step)
    }
}

/// A world and its judge, and the report up to now.
struct Stage<'a> {
    world: World,
    judge: Judge,
    out: &'a mut Vec<u8>,
}

impl Stage<'_> {
    fn play(&mut self, command: Command, p: u64, numbers: &Numbers) -> Result<(), Refusal> {
        match command {
            Command::Step => self.steps(p, numbers[0]),
            Command::Crash => {
                self.world.crash(p)?;
                self.tell(p, Told::act(Act::Crash));
                Ok(())
            }
            Command::Start(call) => self.world.start(p, call, numbers),
        }
    }

    /// Takes steps, up to this number or to the answer of the call.
    fn steps(&mut self, p: u64, count: u64) -> Result<(), Refusal> {
        for _ in 0..count {
            let told = self.world.step(p)?;
            self.tell(p, told);
            if told.answer.is_some() {
                break;
            }
        }
        Ok(())
    }

    /// Writes what a step or a crash tells, and has its deed judged.
    #[inline]
    fn tell(&mut self, p: u64, told: Told) {
        if let Some(act) = told.act {
            let matter = self.world.matter(act);
            self.judge.hear(act, p, matter);
            report::deed(self.out, act, p, matter);
        }
        if let Some(answer) = told.answer {
            let word = self.world.processes[p as usize].job.record[0];
            report::answer(self.out, answer, p, word);
        }
    }
}

/// Plays a schedule. Answers whether its verdict is fine.
///
/// The lines are played as they are read. Where a line is refused, those after it are read all the same:
/// a fault of the text comes first, and then nothing of the report is kept.
pub fn replay(text: &[u8], out: &mut Vec<u8>) -> Result<bool, Fault> {
    let in_header = |number| Fault::Text { line: 1, number };
    let (sizes, rest) = words::header(text, "rme", true).map_err(in_header)?;
    let mut stage = match sizes.check() {
        Ok(()) => Ok(Stage { world: World::new(sizes, Variant::Right), judge: Judge::new(sizes), out }),
        Err(number) => Err(Fault::Refused { line: 1, number }),
    };
    let mut reader = Reader { rest };
    let mut numbers = Numbers::default();
    let mut line = 1;
    while !reader.rest.is_empty() {
        line += 1;
        let start = reader.rest;
        let Some((command, p)) = reader.line::<Command>(sizes.width, &mut numbers) else {
            return Err(Fault::Text { line, number: words::fault_of::<Command>(start, sizes.width) });
        };
        if let Ok(playing) = &mut stage
            && let Err(number) = playing.play(command, p, &numbers)
        {
            stage = Err(Fault::Refused { line, number });
        }
    }
    let Stage { world, judge, out } = stage?;
    report::last_words(out, &world);
    out.extend_from_slice(judge.verdict().as_bytes());
    Ok(judge.is_fine())
}
