//! A trace judged in pieces, from one buffer that holds whole lines and the beginning of one.

use crate::fault::Fault;
use crate::judge::{Judge, Matter};
use crate::line::{Form, Numbers, Reader, first_of};
use crate::terms::*;
use crate::words;
use std::io::{self, ErrorKind, Read};

impl Form for Act {
    #[inline]
    fn named(text: &[u8]) -> Option<(Act, &[u8])> {
        first_of!(text,
            b"begin " => Act::Begin,
            b"ready " => Act::Ready,
            b"enter " => Act::Enter,
            b"commit " => Act::Commit,
            b"show " => Act::Show,
            b"leave " => Act::Leave,
            b"crash " => Act::Crash,
            b"reenter " => Act::Reenter,
            b"quit " => Act::Quit,
            b"close " => Act::Close,
            b"ruin " => Act::Ruin,
        )
    }

    fn numbers(self, width: usize) -> usize {
        match self {
            Act::Commit => 1 + width,
            Act::Show => 2 + width,
            _ => 0,
        }
    }

    fn may_count(self) -> bool {
        false
    }
}

/// A trace as far as it was read. A refused header has no judge, and waits for a fault of the text.
struct Trial {
    width: usize,
    line: u64,
    judge: Result<Judge, Refusal>,
}

impl Trial {
    /// Reads the header, and answers it with what follows it.
    fn begun(text: &[u8]) -> Result<(Trial, &[u8]), Fault> {
        let in_header = |number| Fault::Text { line: 1, number };
        let (sizes, rest) = words::header(text, "trace", false).map_err(in_header)?;
        let judge = sizes.check().map(|()| Judge::new(sizes));
        Ok((Trial { width: sizes.width, line: 1, judge }, rest))
    }

    /// The trial after some more lines.
    fn heard(mut self, text: &[u8]) -> Result<Trial, Fault> {
        let mut reader = Reader { rest: text };
        let mut numbers = Numbers::default();
        while !reader.rest.is_empty() {
            self.line += 1;
            let start = reader.rest;
            let Some((act, p)) = reader.line::<Act>(self.width, &mut numbers) else {
                return Err(Fault::Text { line: self.line, number: words::fault_of::<Act>(start, self.width) });
            };
            if let Ok(judge) = &mut self.judge {
                judge.hear(act, p, matter(act, &numbers, self.width));
            }
        }
        Ok(self)
    }
}

fn matter(act: Act, numbers: &Numbers, width: usize) -> Matter<'_> {
    match act {
        Act::Commit => Matter { place: 0, message: &numbers[..1 + width] },
        Act::Show => Matter { place: numbers[0], message: &numbers[1..2 + width] },
        _ => Matter::NONE,
    }
}

/// Hands on the pieces of a text. Each ends after a line, but the last one may end within it.
fn pieces(input: &mut impl Read, mut hear: impl FnMut(&[u8])) -> io::Result<()> {
    let mut buffer = vec![0; 1 << 16];
    let mut held = 0;
    loop {
        if held == buffer.len() {
            buffer.resize(2 * held, 0);
        }
        let taken = match input.read(&mut buffer[held..]) {
            Err(fault) if fault.kind() == ErrorKind::Interrupted => continue,
            taken => taken?,
        };
        let known = held + taken;
        if taken == 0 {
            hear(&buffer[..known]);
            return Ok(());
        }
        let fresh = &buffer[held..known];
        let whole = fresh.iter().rposition(|byte| *byte == b'\n').map_or(0, |at| held + at + 1);
        if whole > 0 {
            hear(&buffer[..whole]);
        }
        buffer.copy_within(whole..known, 0);
        held = known - whole;
    }
}

/// Judges a trace, and writes its verdict. Answers whether that is fine.
///
/// After a fault the rest is read all the same: that it can't be read comes first.
pub fn judge(input: &mut impl Read, out: &mut Vec<u8>) -> Result<bool, Fault> {
    let mut trial: Option<Result<Trial, Fault>> = None;
    let hear = |text: &[u8]| {
        trial = Some(match trial.take() {
            None => Trial::begun(text).and_then(|(begun, rest)| begun.heard(rest)),
            Some(before) => before.and_then(|before| before.heard(text)),
        });
    };
    pieces(input, hear).map_err(|_| Fault::Read)?;
    let judge = trial.expect("a piece")?.judge.map_err(|number| Fault::Refused { line: 1, number })?;
    out.extend_from_slice(judge.verdict().as_bytes());
    Ok(judge.is_fine())
}
