//! The hunt: rounds of drawn moves, until the judge refuses a deed.

use crate::draws::Draws;
use crate::fault::Fault;
use crate::judge::Judge;
use crate::terms::{Sizes, Variant};
use crate::walk::{Move, Walk};

const SIZES: Sizes = Sizes { procs: 3, limit: 1_000_000, cap: 64, width: 1 };
const HEADER: &[u8] = b"rme 1 procs 3 limit 1000000 cap 64\n";
const MOST: u64 = 10_000;

/// Draws rounds until the judge refuses a deed, and writes the schedule of that round. Answers whether there is none.
pub fn hunt(variant: Variant, numbers: [u64; 4], out: &mut Vec<u8>) -> Result<bool, Fault> {
    out.extend_from_slice(HEADER);
    let none = search(variant, numbers, |p, to| to.write(p, out))?;
    if none {
        out.clear();
        out.extend_from_slice(b"nothing found\n");
    }
    Ok(none)
}

/// The same, a letter a move.
pub fn letters(variant: Variant, numbers: [u64; 4], out: &mut Vec<u8>) -> Result<bool, Fault> {
    let none = search(variant, numbers, |p, to| to.write_letter(p, out))?;
    out.push(b'\n');
    Ok(none)
}

/// Draws rounds until the judge refuses a deed, and hands on the moves of that round. Answers whether there is none.
///
/// The moves of a round are not kept: those of the one that is handed on are drawn again.
fn search(variant: Variant, [seed, rounds, steps, all]: [u64; 4], see: impl FnMut(u64, Move)) -> Result<bool, Fault> {
    if !(1..=MOST).contains(&rounds) || !(1..=MOST).contains(&steps) || all > 1000 {
        return Err(Fault::BadSize);
    }
    let mut draws = Draws::seeded(seed);
    for _ in 0..rounds {
        let mut again = draws.clone();
        if !round(variant, &mut draws, [steps, all], |_, _| ()) {
            round(variant, &mut again, [steps, all], see);
            return Ok(false);
        }
    }
    Ok(true)
}

/// Draws a round in a new world, `all` of 1,000 moves a crash of all. Answers whether all its deeds were allowed.
fn round(variant: Variant, draws: &mut Draws, [steps, all]: [u64; 2], mut see: impl FnMut(u64, Move)) -> bool {
    let (mut walk, mut judge) = (Walk::new(SIZES, variant), Judge::new(SIZES));
    for _ in 0..steps {
        let word = draws.draw();
        if u64::from(word / 4096 % 1000) < all {
            see(0, Move::CrashAll);
            for p in 0..SIZES.procs {
                if let Some(act) = walk.go(p, true, |_| ()) {
                    judge.hear(act, p, walk.world.matter(act));
                }
            }
            continue;
        }
        let p = u64::from(word % 3);
        let act = walk.go(p, word / 64 % 16 == 0, |to| see(p, to));
        if let Some(act) = act
            && !judge.hear(act, p, walk.world.matter(act))
        {
            return false;
        }
    }
    true
}
