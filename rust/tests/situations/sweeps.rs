//! What sweeps are about: how many loans end, what stands beside them and where in the table they are;
//! which number a refused one has; what follows, room in a full table and a shift back; and the checks
//! that a sweep leaves as they were.

use std::collections::BTreeSet;

use super::{Moment, Situation};
use crate::model::{BestChain, Command, Journal, Loan};

/// A sweep, and the journal before it.
pub struct Sweep<'a> {
    journal: &'a Journal,
    by: u32,
    /// The loans past their last shift, and the others.
    past: Vec<Loan>,
    others: Vec<Loan>,
}

impl<'a> Sweep<'a> {
    /// The sweep, if the command is one.
    pub fn of(journal: &'a Journal, command: Command) -> Option<Self> {
        let Command::Sweep { by } = command else {
            return None;
        };
        let is_past = |loan: &&Loan| loan.last != 0 && loan.last < journal.shift;
        let (past, others) = journal.loans.iter().partition(is_past);
        Some(Self { journal, by, past, others })
    }

    fn ends(&self) -> usize {
        self.past.len()
    }

    /// Such a loan is among the others.
    fn beside(&self, such: impl Fn(&Loan) -> bool) -> bool {
        self.others.iter().any(such)
    }

    fn dated(&self) -> bool {
        self.beside(|loan| loan.last != 0)
    }

    fn open_ended(&self) -> bool {
        self.beside(|loan| loan.last == 0)
    }

    /// The past loans have several of these numbers.
    fn several(&self, number: impl Fn(&Loan) -> u32) -> bool {
        self.past.iter().map(number).collect::<BTreeSet<u32>>().len() > 1
    }

    /// A past loan stands with another last shift that is not past.
    fn otherwise(&self) -> bool {
        let same = |a: &Loan, b: &Loan| Loan { last: b.last, ..*a } == *b;
        self.past.iter().any(|past| self.beside(|other| same(past, other)))
    }

    /// By one whom no past loan names.
    fn of_others(&self) -> bool {
        self.past.iter().all(|loan| ![loan.lender, loan.item, loan.borrower].contains(&self.by))
    }

    fn edits_nothing(&self) -> bool {
        !self.journal.grants.iter().any(|grant| grant.person == self.by && grant.right == 0)
    }
}

/// What later commands owe to sweeps.
#[derive(Clone, Debug, Default)]
pub struct Swept {
    /// One has ended loans, and no shift was accepted since.
    done: bool,
    /// So many more loans fit since one ended some of a full table; none has ended otherwise since.
    room: usize,
    /// The last lend that was refused with 10.
    full: Option<Command>,
    /// A shift was refused with 12 since the last one back.
    refused: bool,
    /// After such a refusal one has ended all the loans with a last shift.
    freed: bool,
    /// What the last one ended.
    loans: Vec<Loan>,
}

/// What a command owes to them.
#[derive(Clone, Copy, Debug, Default)]
pub struct SweptOwed {
    /// It is a sweep after one that has ended loans, in the same shift.
    second: bool,
    room: bool,
    /// It is the lend that had 10.
    full: bool,
    freed: bool,
    /// It lends what the last sweep has ended.
    ended: bool,
}

impl Swept {
    /// By the journal before the command.
    pub fn owed(&self, journal: &Journal, command: Command, number: u32) -> SweptOwed {
        let lent = command.loan().filter(|_| matches!(command, Command::Lend { .. }));
        let new = lent.is_some_and(|loan| number == 0 && !journal.loans.contains(&loan));
        let back = matches!(command, Command::Shift { now, .. } if now < journal.shift);
        SweptOwed {
            second: number == 0 && self.done && matches!(command, Command::Sweep { .. }),
            room: new && self.room > 0,
            full: new && self.room > 0 && self.full == Some(command),
            freed: number == 0 && back && self.freed,
            ended: number == 13 && lent.is_some_and(|loan| self.loans.contains(&loan)),
        }
    }

    /// What later commands need to know of this one.
    pub fn take(&mut self, moment: &Moment) {
        match (moment.command, moment.number) {
            (Command::Sweep { .. }, 0) => self.sweep(moment),
            (Command::Lend { .. }, 10) => self.full = Some(moment.command),
            (Command::Lend { last, .. }, 0) => {
                self.room -= usize::from(moment.swept_owed.room);
                self.freed &= last == 0;
            }
            (Command::Recall { .. } | Command::Delete { .. }, 0) => self.room = 0,
            (Command::Withdraw { .. } | Command::Drop { .. }, 0) => self.room = 0,
            (Command::Shift { .. }, 12) => self.refused = true,
            (Command::Shift { .. }, 0) => {
                self.done = false;
                self.freed &= !moment.back(0);
                self.refused &= !moment.back(0);
            }
            _ => (),
        }
    }

    fn sweep(&mut self, moment: &Moment) {
        let Some(sweep) = moment.sweep.as_ref().filter(|sweep| sweep.ends() > 0) else {
            return;
        };
        self.done = true;
        self.room = if moment.full() || self.room > 0 { self.room + sweep.ends() } else { 0 };
        self.freed = self.refused && !sweep.dated();
        self.loans = sweep.past.clone();
    }
}

impl Moment<'_> {
    /// Whether it is a sweep with this number of which that holds.
    fn sweep(&self, number: u32, holds: impl Fn(&Sweep) -> bool) -> bool {
        self.number == number && self.sweep.as_ref().is_some_and(holds)
    }

    /// Whether it is an accepted sweep that ends loans, of which that holds.
    fn sweeps(&self, holds: impl Fn(&Sweep) -> bool) -> bool {
        self.sweep(0, |s| s.ends() > 0 && holds(s))
    }

    /// Whether it is an accepted sweep that ends none, of which that holds.
    fn sweeps_none(&self, holds: impl Fn(&Sweep) -> bool) -> bool {
        self.sweep(0, |s| s.ends() == 0 && holds(s))
    }
}

/// An accepted sweep.
pub const SITUATIONS: [Situation; 24] = [
    ("sweep where no loan stands", |m| m.sweeps_none(|s| s.others.is_empty())),
    ("sweep of open-ended loans alone", |m| m.sweeps_none(|s| s.open_ended() && !s.dated())),
    ("sweep beside last shifts, none past", |m| m.sweeps_none(|s| s.dated())),
    ("sweep beside last shifts in shift 0", |m| {
        m.sweeps_none(|s| s.dated() && s.journal.shift == 0)
    }),
    ("sweep of a full table that ends none", |m| m.full() && m.sweeps_none(|_| true)),
    ("sweep that ends one loan", |m| m.sweeps(|s| s.ends() == 1)),
    ("sweep that ends 2 to 15 loans", |m| m.sweeps(|s| (2..16).contains(&s.ends()))),
    ("sweep that ends 16 loans or more", |m| m.sweeps(|s| s.ends() >= 16)),
    ("sweep of a full table that ends some", |m| m.full() && m.sweeps(|_| true)),
    ("sweep that ends every one of several loans", |m| {
        m.sweeps(|s| s.ends() > 1 && s.others.is_empty())
    }),
    ("sweep that leaves open-ended loans alone", |m| m.sweeps(|s| s.open_ended() && !s.dated())),
    ("sweep that leaves last shifts alone", |m| m.sweeps(|s| !s.open_ended() && s.dated())),
    ("sweep between open-ended loans and later last shifts", |m| {
        m.sweeps(|s| s.open_ended() && s.dated())
    }),
    ("sweep beside a loan in its last shift", |m| {
        m.sweeps(|s| s.beside(|loan| loan.last == s.journal.shift))
    }),
    ("sweep beside a loan in its last shift but one", |m| {
        m.sweeps(|s| s.beside(|loan| loan.last == s.journal.shift + 1))
    }),
    ("sweep of a loan whose last shift was the one before", |m| {
        m.sweeps(|s| s.past.iter().any(|loan| loan.last + 1 == s.journal.shift))
    }),
    ("sweep in shift 255", |m| m.sweeps(|s| s.journal.shift == 255)),
    ("sweep of several last shifts", |m| m.sweeps(|s| s.several(|loan| loan.last))),
    ("sweep of several items", |m| m.sweeps(|s| s.several(|loan| loan.item))),
    ("sweep of several rights", |m| m.sweeps(|s| s.several(|loan| loan.right))),
    ("sweep of several lenders", |m| m.sweeps(|s| s.several(|loan| loan.lender))),
    ("sweep that leaves the loan with another last", |m| m.sweeps(|s| s.otherwise())),
    ("sweep by one who may edit nothing", |m| m.sweeps(|s| s.edits_nothing())),
    ("sweep of others' loans", |m| m.sweeps(|s| s.of_others())),
];

/// One that is refused, and what follows one that has ended loans.
pub const OTHERS: [Situation; 9] = [
    ("3 for a sweep where past loans stand", |m| m.sweep(3, |s| s.ends() > 0)),
    ("4 for a sweep where past loans stand", |m| m.sweep(4, |s| s.ends() > 0)),
    ("4 for a sweep where none is past", |m| m.sweep(4, |s| s.ends() == 0)),
    ("second sweep, which ends none", |m| m.swept_owed.second && m.sweeps_none(|_| true)),
    ("second sweep beside loans that stay", |m| {
        m.swept_owed.second && m.sweeps_none(|s| !s.others.is_empty())
    }),
    ("lend that a sweep leaves room for", |m| m.swept_owed.room),
    ("the lend that had 10, after a sweep", |m| m.swept_owed.full),
    ("shift back after a sweep, refused with 12 before", |m| m.swept_owed.freed),
    ("13 for a loan that was swept", |m| m.swept_owed.ended),
];

/// What a check that a sweep leaves as it was owes to the loans that ended.
pub const CHECKS: [&str; 4] = [
    "yes before and after a sweep",
    "no before and after a sweep, and a yes were no loan past",
    "less before and after a sweep than were no loan past",
    "another answer in a later shift, before and after a sweep",
];

/// Which of `CHECKS` a check is, by the best chains to the person now, were no loan past, and in a later
/// shift.
pub fn stays([now, all, later]: [Option<BestChain>; 3]) -> [bool; CHECKS.len()] {
    let allowance = |best: Option<BestChain>| best.map(|best| best.allowance);
    [
        now.is_some(),
        now.is_none() && all.is_some(),
        now.is_some() && allowance(now) < allowance(all),
        now != later,
    ]
}
