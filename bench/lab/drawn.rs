//! Texts to be measured by: a drawn schedule, and the trace of the deeds of one.

use crate::draws::Draws;
use crate::report;
use crate::terms::*;
use crate::walk::{Move, Walk};

/// What is drawn: how many processes, lines after the header, a seed, and how many of 1,000 moves are crashes.
pub struct Plan {
    pub procs: u64,
    pub lines: u64,
    pub seed: u64,
    pub crashes: u64,
}

impl Plan {
    /// A schedule of this number of moves, one a line.
    pub fn schedule(&self) -> Vec<u8> {
        let mut out = format!("rme 1 procs {} limit {MOST_LIMIT} cap {MOST_CAP}\n", self.procs).into_bytes();
        let mut drawing = Drawing::of(self);
        for _ in 0..self.lines {
            let (p, to, _) = drawing.go();
            to.write(p, &mut out);
        }
        out
    }

    /// A trace of this number of deeds of moves.
    pub fn trace(&self) -> Vec<u8> {
        let mut out = format!("trace 1 procs {} cap {MOST_CAP}\n", self.procs).into_bytes();
        let mut drawing = Drawing::of(self);
        let mut written = 0;
        while written < self.lines {
            if let (p, _, Some(act)) = drawing.go() {
                report::deed(&mut out, act, p, drawing.walk.world.matter(act));
                written += 1;
            }
        }
        out
    }
}

struct Drawing<'a> {
    plan: &'a Plan,
    walk: Walk,
    draws: Draws,
}

impl Drawing<'_> {
    fn of(plan: &Plan) -> Drawing<'_> {
        let sizes = Sizes { procs: plan.procs, limit: MOST_LIMIT, cap: MOST_CAP, width: 1 };
        Drawing { plan, walk: Walk::new(sizes, Variant::Right), draws: Draws::seeded(plan.seed) }
    }

    fn below(&mut self, bound: u64) -> u64 {
        u64::from(self.draws.draw()) % bound
    }

    /// Moves a process that is drawn. For one that waits it draws once more, so that fewer steps are blocked.
    fn go(&mut self) -> (u64, Move, Option<Act>) {
        let mut p = self.below(self.plan.procs);
        if self.walk.world.processes[p as usize].waits() {
            p = self.below(self.plan.procs);
        }
        let crashes = self.below(1000) < self.plan.crashes;
        let mut to = Move::Step;
        let act = self.walk.go(p, crashes, |made| to = made);
        (p, to, act)
    }
}
