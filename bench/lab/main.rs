//! The opponent of `rmelab`'s replay, judge and hunt: the same work in plain Rust, without contracts, written for speed.
//! It prints the same bytes, tells the same faults and ends with the same status.
//!
//!     lab replay < SCHEDULE        lab judge < TRACE        lab hunt VARIANT SEED ROUNDS STEPS [CRASHES OF ALL]
//!
//! It also writes the schedule of a hunt with a letter a move, `letters` in the place of `hunt`, for the tests of the
//! drawing rule, and draws what the two are measured by, with a given number of crashes among 1,000 moves:
//!
//!     lab schedule PROCS LINES SEED CRASHES        lab trace PROCS DEEDS SEED CRASHES

mod drawn;
mod draws;
mod fault;
mod hunt;
mod judge;
mod line;
mod lock;
mod mail;
mod replay;
mod report;
mod terms;
mod trial;
mod walk;
mod words;
mod world;

use drawn::Plan;
use fault::Fault;
use std::io::{self, Read, Write};
use std::process::ExitCode;
use terms::Variant;

/// Does what the words ask for, writing to `out`. Answers whether all is fine.
fn obey(words: &[String], out: &mut Vec<u8>) -> Result<bool, Fault> {
    let command = words.first().map_or("", String::as_str);
    let numbers: Vec<u64> = words.iter().skip(1).filter_map(|word| word.parse().ok()).collect();
    match (command, &numbers[..]) {
        ("replay", []) => {
            let mut text = Vec::new();
            io::stdin().lock().read_to_end(&mut text).map_err(|_| Fault::Read)?;
            replay::replay(&text, out)
        }
        ("judge", []) => trial::judge(&mut io::stdin().lock(), out),
        ("hunt" | "letters", &[seed, rounds, steps, ref all @ ..]) => {
            let all = all.first().copied().unwrap_or(0);
            let variant = Variant::named(&words[1]).ok_or(Fault::BadSize)?;
            let hunts = if command == "hunt" { hunt::hunt } else { hunt::letters };
            hunts(variant, [seed, rounds, steps, all], out)
        }
        ("schedule", &[procs, lines, seed, crashes]) => {
            *out = Plan { procs, lines, seed, crashes }.schedule();
            Ok(true)
        }
        ("trace", &[procs, lines, seed, crashes]) => {
            *out = Plan { procs, lines, seed, crashes }.trace();
            Ok(true)
        }
        _ => panic!("no such words"),
    }
}

/// Writes what there is to write. After a fault of a text that is nothing.
fn main() -> ExitCode {
    let words: Vec<String> = std::env::args().skip(1).collect();
    let mut out = Vec::new();
    let mut ended = obey(&words, &mut out);
    if matches!(ended, Ok(_) | Err(Fault::Refused { .. })) {
        let mut device = io::stdout().lock();
        if device.write_all(&out).and_then(|()| device.flush()).is_err() {
            ended = Err(Fault::Write);
        }
    }
    match ended {
        Ok(fine) => ExitCode::from(u8::from(!fine)),
        Err(fault) => {
            let (line, status) = fault.told();
            eprintln!("rmelab: {line}");
            ExitCode::from(status)
        }
    }
}
