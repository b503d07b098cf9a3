//! The steps of the lock: each is one load or one store of one process's word.

use crate::terms::*;
use crate::world::*;

impl World {
    /// Takes the next step of a process.
    #[inline(always)]
    pub fn step(&mut self, p: u64) -> Result<Told, Refusal> {
        let World { limit, variant, lock, processes, mail } = self;
        let process = processes.get_mut(p as usize).ok_or(NO_SUCH_PROCESS)?;
        let own = &mut lock[p as usize];
        Ok(match process.next {
            Next::Rest | Next::Dead | Next::Inside => return Err(NOTHING_TO_DO),
            Next::ReadChoosing => process.go(Next::ReadNumber),
            Next::ReadNumber => process.go(Next::ReadInside),
            Next::ReadInside => process.restart(own, *variant),
            Next::Open => process.open(own),
            Next::Peek => process.peek(p as usize, lock, *limit),
            Next::Shut => process.shut(own),
            Next::Look if *variant != Variant::NoLook => process.look(p as usize, lock),
            Next::Look | Next::Weigh => process.weigh(p as usize, lock, *variant),
            Next::Drop => process.drop_number(own),
            Next::Withdraw => process.withdraw(own),
            Next::Unmark => process.unmark(own),
            _ => process.work(p, mail),
        })
    }
}

impl Process {
    pub fn go(&mut self, next: Next) -> Told {
        self.next = next;
        Told::NOTHING
    }

    pub fn end(&mut self, next: Next, answer: Answer) -> Told {
        self.next = next;
        Told::answer(answer)
    }

    /// The third reread, by the restart table. Only the process itself writes the three words, so they still stand.
    fn restart(&mut self, own: &Own, variant: Variant) -> Told {
        let locks = self.aim == Aim::Lock;
        match (own.choosing, own.number, own.inside) {
            (0, 0, 0) if locks => self.go(Next::Open),
            (0, 0, 0) => self.end(Next::Rest, Answer::FoundIdle),
            (0, 0, _) => self.go(Next::Unmark),
            (0, _, 0) if locks => self.scan(Next::Look),
            (0, _, 0) => self.end(Next::Rest, Answer::FoundWaiting),
            (0, _, _) if variant == Variant::ExitOnCrash => self.go(Next::Drop),
            (0, _, _) => self.enter_again(locks),
            (_, 0, _) if locks => self.scan(Next::Peek),
            (_, 0, _) => self.end(Next::Rest, Answer::FoundDoorway),
            _ if locks && variant == Variant::Renumber => self.scan(Next::Peek),
            _ => self.go(Next::Shut),
        }
    }

    fn enter_again(&mut self, locks: bool) -> Told {
        self.mended = false;
        self.next = if locks { Next::Check } else { Next::Inside };
        Told { act: Some(Act::Reenter), answer: (!locks).then_some(Answer::FoundInside) }
    }

    /// Goes to the first reading of the doorway or of the wait.
    fn scan(&mut self, first: Next) -> Told {
        self.scanned = 0;
        self.greatest = 0;
        self.go(first)
    }

    fn open(&mut self, own: &mut Own) -> Told {
        own.choosing = 1;
        self.scan(Next::Peek);
        Told::act(Act::Begin)
    }

    /// The process that a scan is at. After the last one there is none.
    fn other(&self, p: usize, lock: &[Own]) -> Option<(usize, Own)> {
        let other = self.scanned + usize::from(self.scanned == p);
        Some((other, *lock.get(other)?))
    }

    /// Reads a number in the doorway, or after the last one takes an own.
    fn peek(&mut self, p: usize, lock: &mut [Own], limit: u64) -> Told {
        let Some((other, theirs)) = self.other(p, lock) else {
            return self.take(&mut lock[p], limit);
        };
        self.greatest = self.greatest.max(theirs.number);
        self.scanned = other + 1;
        Told::NOTHING
    }

    /// Looks whether another is in the doorway, or after the last one enters.
    fn look(&mut self, p: usize, lock: &mut [Own]) -> Told {
        match self.other(p, lock) {
            Some((_, theirs)) if theirs.choosing != 0 => Told::NOTHING,
            Some(_) => self.go(Next::Weigh),
            None => self.mark(&mut lock[p]),
        }
    }

    /// Compares two numbers. (Without looks it may stand after the last one.)
    fn weigh(&mut self, p: usize, lock: &mut [Own], variant: Variant) -> Told {
        let Some((other, theirs)) = self.other(p, lock) else {
            return self.mark(&mut lock[p]);
        };
        let number = lock[p].number;
        let ties = theirs.number == number && variant == Variant::NoTies;
        if theirs.number == 0 || (number, p) < (theirs.number, other) || ties {
            self.scanned = other + 1;
            self.next = Next::Look;
        }
        Told::NOTHING
    }

    /// Takes a number. Only the variant renumber takes one over another, and that is no deed.
    fn take(&mut self, own: &mut Own, limit: u64) -> Told {
        let over = own.number != 0;
        if self.greatest >= limit && over {
            return self.go(Next::Shut);
        }
        if self.greatest >= limit {
            own.choosing = 0;
            self.next = Next::Rest;
            return Told { act: Some(Act::Quit), answer: Some(Answer::NumbersSpent) };
        }
        own.number = self.greatest + 1;
        self.next = Next::Shut;
        Told { act: (!over).then_some(Act::Ready), answer: None }
    }

    fn shut(&mut self, own: &mut Own) -> Told {
        own.choosing = 0;
        match self.aim {
            Aim::Lock => self.scan(Next::Look),
            _ => self.end(Next::Rest, Answer::FoundWaiting),
        }
    }

    fn mark(&mut self, own: &mut Own) -> Told {
        own.inside = 1;
        self.mended = true;
        self.next = Next::Check;
        Told::act(Act::Enter)
    }

    /// Drops the number. In a lock or a recover, where only the variant exit-on-crash does, it is no deed.
    fn drop_number(&mut self, own: &mut Own) -> Told {
        own.number = 0;
        self.next = Next::Unmark;
        let leaves = matches!(self.aim, Aim::Unlock | Aim::Barred);
        Told { act: leaves.then_some(Act::Leave), answer: None }
    }

    fn withdraw(&mut self, own: &mut Own) -> Told {
        own.number = 0;
        self.next = Next::Rest;
        Told { act: Some(Act::Quit), answer: Some(Answer::Withdrawn) }
    }

    fn unmark(&mut self, own: &mut Own) -> Told {
        own.inside = 0;
        match self.aim {
            Aim::Lock => self.go(Next::Open),
            Aim::Recover => self.end(Next::Rest, Answer::FoundLeft),
            Aim::Unlock => self.end(Next::Rest, Answer::Unlocked),
            Aim::Barred => self.end(Next::Rest, Answer::NotRecoverable),
        }
    }
}
