//! The judge of deeds. Each phase is a set of processes, a bit for each.

use crate::terms::*;

/// Why a deed is refused.
#[derive(Clone, Copy)]
enum Blame {
    OutOfPlace,
    TwoInside,
    NotReentered,
    /// The one who enters goes before this one.
    Overtaken(u8),
    NotInside,
    MailOrder,
    AfterClose,
}

impl Blame {
    fn number(self) -> u8 {
        match self {
            Blame::OutOfPlace => 1,
            Blame::TwoInside => 2,
            Blame::NotReentered => 3,
            Blame::Overtaken(_) => 4,
            Blame::NotInside => 5,
            Blame::MailOrder => 6,
            Blame::AfterClose => 7,
        }
    }
}

fn need(holds: bool, blame: Blame) -> Result<(), Blame> {
    if holds { Ok(()) } else { Err(blame) }
}

/// What a deed speaks of beside its process: a place, and the number and value of a message.
#[derive(Clone, Copy)]
pub struct Matter<'a> {
    pub place: u64,
    pub message: &'a [u64],
}

impl Matter<'_> {
    pub const NONE: Matter<'static> = Matter { place: 0, message: &[] };
}

pub struct Judge {
    cap: u64,
    door: u64,
    ready: u64,
    inside: u64,
    dead_inside: u64,
    /// For each process those that go in before it.
    ahead: Vec<u64>,
    /// For each process how many of its messages are shown.
    shown_of: Vec<u64>,
    shown: u64,
    /// Who committed the message that is not shown yet, and that message.
    pending: Option<u64>,
    message: [u64; 9],
    closed: bool,
    ruined: bool,
    heard: u64,
    /// Whose deed is refused, and why.
    verdict: Option<(u64, Blame)>,
}

impl Judge {
    /// A judge of a history's beginning, of sizes that were checked.
    pub fn new(sizes: Sizes) -> Judge {
        let procs = sizes.procs as usize;
        Judge {
            cap: sizes.cap,
            door: 0,
            ready: 0,
            inside: 0,
            dead_inside: 0,
            ahead: vec![0; procs],
            shown_of: vec![0; procs],
            shown: 0,
            pending: None,
            message: [0; 9],
            closed: false,
            ruined: false,
            heard: 0,
            verdict: None,
        }
    }

    /// Hears the next deed. Answers whether none was refused up to it.
    pub fn hear(&mut self, act: Act, p: u64, matter: Matter) -> bool {
        if self.verdict.is_none() {
            self.heard += 1;
            self.verdict = self.judge(act, p, matter).err().map(|blame| (p, blame));
        }
        self.verdict.is_none()
    }

    pub fn is_fine(&self) -> bool {
        self.verdict.is_none()
    }

    /// The line of the verdict.
    pub fn verdict(&self) -> String {
        let Some((p, blame)) = self.verdict else {
            return "verdict fine\n".to_string();
        };
        let whom = match blame {
            Blame::Overtaken(of) => format!(" by {p} of {of}"),
            _ => String::new(),
        };
        format!("verdict against {} at {}{whom}\n", blame.number(), self.heard)
    }

    fn judge(&mut self, act: Act, p: u64, matter: Matter) -> Result<(), Blame> {
        need(p < self.ahead.len() as u64, Blame::OutOfPlace)?;
        let own = 1 << p;
        match act {
            Act::Begin => self.begin(p, own),
            Act::Ready => {
                need(self.door & own != 0, Blame::OutOfPlace)?;
                self.door ^= own;
                self.ready |= own;
                Ok(())
            }
            Act::Enter => self.enter(p, own),
            Act::Crash => {
                self.dead_inside |= self.inside & own;
                self.inside &= !own;
                Ok(())
            }
            Act::Reenter => {
                need(self.dead_inside & own != 0, Blame::OutOfPlace)?;
                self.dead_inside ^= own;
                self.inside |= own;
                Ok(())
            }
            Act::Leave => {
                need(self.inside & own != 0, Blame::OutOfPlace)?;
                need(self.pending.is_none() || self.ruined, Blame::MailOrder)?;
                self.inside ^= own;
                Ok(())
            }
            Act::Quit => {
                need((self.door | self.ready) & own != 0, Blame::OutOfPlace)?;
                self.pass(own);
                Ok(())
            }
            _ => self.mail(act, p, own, matter),
        }
    }

    fn begin(&mut self, p: u64, own: u64) -> Result<(), Blame> {
        let out = (self.door | self.ready | self.inside | self.dead_inside) & own == 0;
        need(out, Blame::OutOfPlace)?;
        self.ahead[p as usize] = self.ready;
        self.door |= own;
        Ok(())
    }

    fn enter(&mut self, p: u64, own: u64) -> Result<(), Blame> {
        need(self.ready & own != 0, Blame::OutOfPlace)?;
        need(self.inside == 0, Blame::TwoInside)?;
        need(self.dead_inside == 0, Blame::NotReentered)?;
        let ahead = self.ahead[p as usize];
        if ahead != 0 {
            return Err(Blame::Overtaken(ahead.trailing_zeros() as u8));
        }
        self.pass(own);
        self.inside = own;
        Ok(())
    }

    /// A process is no longer in the line.
    fn pass(&mut self, own: u64) {
        self.door &= !own;
        self.ready &= !own;
        for ahead in &mut self.ahead {
            *ahead &= !own;
        }
    }

    /// The deeds of the mailbox, which only one inside does.
    fn mail(&mut self, act: Act, p: u64, own: u64, matter: Matter) -> Result<(), Blame> {
        need(self.inside & own != 0, Blame::NotInside)?;
        let message = matter.message;
        match act {
            Act::Commit => {
                let next = message[0] == self.shown_of[p as usize] + 1;
                need(!self.ruined && self.pending.is_none() && self.shown < self.cap && next, Blame::MailOrder)?;
                need(!self.closed, Blame::AfterClose)?;
                self.pending = Some(p);
                self.message[..message.len()].copy_from_slice(message);
            }
            Act::Show => {
                let pending = self.pending == Some(p) && self.message[..message.len()] == *message;
                need(pending && matter.place == self.shown, Blame::MailOrder)?;
                self.shown_of[p as usize] += 1;
                self.shown += 1;
                self.pending = None;
            }
            Act::Close => {
                need(self.pending.is_none(), Blame::MailOrder)?;
                need(!self.closed, Blame::AfterClose)?;
                self.closed = true;
            }
            _ => {
                need(!self.ruined, Blame::MailOrder)?;
                self.ruined = true;
            }
        }
        Ok(())
    }
}
