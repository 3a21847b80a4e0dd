//! What withdraws and drops come to where the person has lent: which loans end and which stay; and what
//! follows, room in a full table, a shift back, a right given back, and loans further down that carry
//! again.

use std::collections::BTreeMap;

use super::drops::key_of;
use super::{Moment, Situation};
use crate::model::{Command, Grant, Journal, Loan};

/// A withdraw or a drop, and the journal before it.
pub struct Withdrawal<'a> {
    journal: &'a Journal,
    by: u32,
    to: u32,
    on: u32,
    right: u32,
    /// The depth of a drop.
    depth: Option<u32>,
    /// The depths granted to the person there.
    depths: Vec<u32>,
    /// The loans that the person made there.
    loans: Vec<Loan>,
}

impl<'a> Withdrawal<'a> {
    /// The withdraw or drop, if the command is one.
    pub fn of(journal: &'a Journal, command: Command) -> Option<Self> {
        let (by, to, on, right, depth) = match command {
            Command::Withdraw { by, to, on, right } => (by, to, on, right, None),
            Command::Drop { by, to, on, right, depth } => (by, to, on, right, Some(depth)),
            _ => return None,
        };
        let depths = journal.depths(to, on, right).collect();
        let loans = journal.made(to, on, right).copied().collect();
        Some(Self { journal, by, to, on, right, depth, depths, loans })
    }

    /// A grant there ends, or would, and it is the last.
    fn last(&self) -> bool {
        match self.depth {
            None => !self.depths.is_empty(),
            Some(depth) => self.depths == [depth],
        }
    }

    /// The loans that end with it if it is accepted.
    fn ended(&self) -> &[Loan] {
        if self.last() {
            &self.loans
        } else {
            &[]
        }
    }

    fn ends(&self) -> usize {
        self.ended().len()
    }

    fn lends(&self) -> bool {
        !self.loans.is_empty()
    }

    fn any(&self, such: impl Fn(&Loan) -> bool) -> bool {
        self.ended().iter().any(such)
    }

    fn past(&self, loan: &Loan) -> bool {
        !loan.carries_in(self.journal.shift)
    }

    /// Such a loan stands before and after.
    fn stays(&self, such: impl Fn(&Loan) -> bool) -> bool {
        let ends = |loan: &Loan| self.last() && self.is_there(loan);
        self.journal.loans.iter().any(|loan| !ends(loan) && such(loan))
    }

    /// A loan of the person on the item and right.
    fn is_there(&self, loan: &Loan) -> bool {
        loan.lender == self.to && self.of_key(loan)
    }

    fn of_key(&self, loan: &Loan) -> bool {
        (loan.item, loan.right) == (self.on, self.right)
    }

    /// Whether the first and the last loan of the table end, by their words.
    fn edges(&self) -> (bool, bool) {
        let word = |loan: &&Loan| (loan.last, **loan);
        let ends = |loan: Option<&Loan>| loan.is_some_and(|loan| self.ended().contains(loan));
        let loans = &self.journal.loans;
        (ends(loans.iter().min_by_key(word)), ends(loans.iter().max_by_key(word)))
    }

    /// One to whom a loan that ends was made has made one there.
    fn further_down(&self) -> bool {
        let lends = |borrower| self.journal.made(borrower, self.on, self.right).next().is_some();
        self.any(|loan| loan.borrower != self.to && lends(loan.borrower))
    }

    /// Two that end differ in depth or last shift alone.
    fn twice(&self) -> bool {
        self.ended().windows(2).any(|pair| pair[0].borrower == pair[1].borrower)
    }
}

/// What ended on an item and right with a lender's grant.
#[derive(Clone, Debug)]
struct Closed {
    lender: u32,
    loans: Vec<Loan>,
    /// The loans by others to persons who have lost the right with it.
    below: Vec<Loan>,
}

impl Closed {
    fn new(withdrawal: &Withdrawal) -> Self {
        let &Withdrawal { journal, to: lender, on, right, .. } = withdrawal;
        let before = journal.best(on, right);
        let mut key = key_of(journal, on, right);
        key.grants.retain(|grant| grant.person != lender);
        key.loans.retain(|loan| loan.lender != lender);
        let after = key.best(on, right);
        let lost =
            |person: u32| before[person as usize].is_some() && after[person as usize].is_none();
        let below = key.loans.into_iter().filter(|loan| lost(loan.borrower)).collect();
        Self { lender, loans: withdrawal.loans.clone(), below }
    }

    fn names(&self, item: u32) -> bool {
        let mut loans = self.loans.iter().chain(&self.below);
        loans.any(|loan| [loan.lender, loan.item, loan.borrower].contains(&item))
    }

    /// The lender has the right again, and with the loans that have ended somebody else would.
    fn clean(&self, after: &Journal, on: u32, right: u32) -> bool {
        let mut standing = after.clone();
        standing.loans.extend(&self.loans);
        let (now, then) = (after.best(on, right), standing.best(on, right));
        let mut others = (0..64).filter(|&who| who != self.lender as usize);
        let closed = |who: usize| now[who].is_none() && then[who].is_some();
        after.granted(self.lender, on, right) && others.any(closed)
    }

    /// One of those below has the right after the command, and had it not before.
    fn again(&self, before: &Journal, after: &Journal, on: u32, right: u32) -> bool {
        let (had, has) = (before.best(on, right), after.best(on, right));
        let carries = |loan: &&Loan| after.loans.contains(loan) && loan.carries_in(after.shift);
        let mut below = self.below.iter().filter(carries);
        below.any(|loan| {
            had[loan.borrower as usize].is_none() && has[loan.lender as usize] > Some(0)
        })
    }
}

/// What later commands owe to loans that have ended with a grant.
#[derive(Clone, Debug, Default)]
pub struct Memory {
    /// So many more fit since some ended in a full table; none has ended otherwise since.
    room: usize,
    /// They were the last ones with a last shift.
    freed: bool,
    /// By item and right, what ended there last.
    closed: BTreeMap<(u32, u32), Closed>,
}

/// What a command owes to them.
#[derive(Clone, Copy, Debug, Default)]
pub struct Owed {
    room: bool,
    freed: bool,
    /// The right is given back, and one whom the ended loans would give it has it not.
    clean: bool,
    /// One who had lost the right has it again through a loan that stood.
    again: bool,
}

impl Memory {
    /// By the journal before an accepted command.
    pub fn owed(&self, journal: &Journal, command: Command) -> Owed {
        let new = |loan: Loan| !journal.loans.contains(&loan);
        let lend = matches!(command, Command::Lend { .. }) && command.loan().is_some_and(new);
        let back = matches!(command, Command::Shift { now, .. } if now < journal.shift);
        let owed =
            Owed { room: lend && self.room > 0, freed: back && self.freed, ..Owed::default() };
        let given = given(command).and_then(|key| Some((key, self.closed.get(&key)?)));
        let Some(((on, right), closed)) = given else {
            return owed;
        };
        let key = key_of(journal, on, right);
        let after = with(key.clone(), command);
        let clean = !journal.granted(closed.lender, on, right) && closed.clean(&after, on, right);
        Owed { clean, again: closed.again(&key, &after, on, right), ..owed }
    }

    /// What later commands need to know of this one.
    pub fn take(&mut self, moment: &Moment) {
        if moment.number != 0 {
            return;
        }
        let journal = moment.journal;
        if let Some(ending) = moment.withdrawal.as_ref().filter(|w| w.ends() > 0) {
            self.room = if moment.full() || self.room > 0 { self.room + ending.ends() } else { 0 };
            self.freed = moment.dated() && journal.dated().all(|loan| ending.is_there(loan));
            self.closed.insert((ending.on, ending.right), Closed::new(ending));
        }
        match moment.command {
            Command::Lend { last, .. } => {
                self.room -= usize::from(moment.owed.room);
                self.freed &= last == 0;
            }
            Command::Recall { .. } => self.room = 0,
            Command::Delete { on, .. } => {
                self.room = 0;
                self.closed.retain(|&(item, _), closed| item != on && !closed.names(on));
            }
            Command::Shift { .. } => self.freed &= !moment.owed.freed,
            _ => (),
        }
    }
}

/// The item and right that a command gives something of.
fn given(command: Command) -> Option<(u32, u32)> {
    match command {
        Command::Allow { on, right, .. }
        | Command::AllowSet { on, right, .. }
        | Command::Lend { on, right, .. } => Some((on, right)),
        _ => None,
    }
}

/// The grants and loans of the key with what the command gives.
fn with(mut key: Journal, command: Command) -> Journal {
    for allow in command.single_allows().into_iter().chain([command]) {
        if let Command::Allow { to, on, right, depth, .. } = allow {
            key.grants.insert(Grant { item: on, right, person: to, depth });
        }
    }
    key.loans.extend(command.loan());
    key
}

impl Moment<'_> {
    /// Whether it is an accepted withdraw or drop that ends loans, of which that holds.
    fn ends(&self, holds: impl Fn(&Withdrawal) -> bool) -> bool {
        self.withdrawal(0, |w| w.ends() > 0 && holds(w))
    }

    /// Whether it is an accepted withdraw that ends so many loans.
    fn withdraws(&self, loans: std::ops::Range<usize>) -> bool {
        self.ends(|w| w.depth.is_none() && loans.contains(&w.ends()))
    }

    /// Whether it is an accepted drop that ends so many.
    fn drops(&self, loans: std::ops::Range<usize>) -> bool {
        self.ends(|w| w.depth.is_some() && loans.contains(&w.ends()))
    }

    /// Whether it is a withdraw or drop with this number of which that holds.
    fn withdrawal(&self, number: u32, holds: impl Fn(&Withdrawal) -> bool) -> bool {
        self.number == number && self.withdrawal.as_ref().is_some_and(holds)
    }
}

/// A withdraw or drop that ends loans.
pub const ENDS: [Situation; 25] = [
    ("withdraw that ends one loan", |m| m.withdraws(1..2)),
    ("withdraw that ends 2 to 15 loans", |m| m.withdraws(2..16)),
    ("withdraw that ends 16 loans or more", |m| m.withdraws(16..1025)),
    ("drop that ends one loan", |m| m.drops(1..2)),
    ("drop that ends 2 to 15 loans", |m| m.drops(2..16)),
    ("drop that ends 16 loans or more", |m| m.drops(16..1025)),
    ("every one of several loans in use ends", |m| {
        m.ends(|w| w.ends() > 1 && w.ends() == w.journal.loans.len())
    }),
    ("loans of a full table end", |m| m.full() && m.ends(|_| true)),
    ("the first loan in use ends, and not the last", |m| m.ends(|w| w.edges() == (true, false))),
    ("the last loan in use ends, and not the first", |m| m.ends(|w| w.edges() == (false, true))),
    ("the first and the last end, and others stay", |m| {
        m.ends(|w| w.edges() == (true, true) && w.stays(|_| true))
    }),
    ("loans between the first and the last alone end", |m| m.ends(|w| w.edges() == (false, false))),
    ("past loans alone end", |m| m.ends(|w| w.ended().iter().all(|loan| w.past(loan)))),
    ("open-ended loans alone end", |m| m.ends(|w| w.ended().iter().all(|loan| loan.last == 0))),
    ("carrying loans with a last shift alone end", |m| {
        m.ends(|w| w.ended().iter().all(|loan| loan.last != 0 && !w.past(loan)))
    }),
    ("past, open-ended and other loans end at once", |m| {
        let kinds: [fn(&Withdrawal, &Loan) -> bool; 3] =
            [|w, l| w.past(l), |_, l| l.last == 0, |w, l| l.last != 0 && !w.past(l)];
        m.ends(|w| kinds.iter().all(|is_one| w.any(|loan| is_one(w, loan))))
    }),
    ("loans to one person at several depths or last shifts end", |m| m.ends(|w| w.twice())),
    ("a loan to oneself ends", |m| m.ends(|w| w.any(|loan| loan.borrower == w.to))),
    ("one's own withdraw or drop ends loans", |m| m.ends(|w| w.by == w.to)),
    ("loans end with several depths", |m| m.ends(|w| w.depths.len() > 1)),
    ("the lender's loans of another right on the item stay", |m| {
        m.ends(|w| w.stays(|l| l.lender == w.to && l.item == w.on && l.right != w.right))
    }),
    ("the lender's loans of the right on another item stay", |m| {
        m.ends(|w| w.stays(|l| l.lender == w.to && l.item != w.on && l.right == w.right))
    }),
    ("another's loans of the item and right stay", |m| {
        m.ends(|w| w.stays(|l| l.lender != w.to && w.of_key(l)))
    }),
    ("loans to the lender of the item and right stay", |m| {
        m.ends(|w| w.stays(|l| l.lender != w.to && l.borrower == w.to && w.of_key(l)))
    }),
    ("loans further down stay", |m| m.ends(|w| w.further_down())),
];

/// One that ends none, or is refused; and what follows where some have ended.
pub const OTHERS: [Situation; 16] = [
    ("withdraw of a lender without a grant there", |m| {
        m.withdrawal(0, |w| w.depth.is_none() && w.depths.is_empty() && w.lends())
    }),
    ("drop of a lender without a grant there", |m| {
        m.withdrawal(0, |w| w.depth.is_some() && w.depths.is_empty() && w.lends())
    }),
    ("drop of a lender's depth that does not stand beside others", |m| {
        let stands = |w: &Withdrawal, depth| w.depths.is_empty() || w.depths.contains(&depth);
        m.withdrawal(0, |w| w.depth.is_some_and(|depth| !stands(w, depth)) && w.lends())
    }),
    ("drop that leaves a lender a depth", |m| {
        m.withdrawal(0, |w| {
            w.depth.is_some_and(|d| w.depths.contains(&d)) && !w.last() && w.lends()
        })
    }),
    ("drop that leaves a lender depth 0 alone", |m| {
        let left = |w: &Withdrawal, depth| w.depths == [0, depth];
        m.withdrawal(0, |w| w.depth.is_some_and(|depth| left(w, depth)) && w.lends())
    }),
    ("last grant of a lender of other rights on the item alone", |m| {
        let other = |w: &Withdrawal| w.stays(|l| l.lender == w.to && l.item == w.on);
        m.withdrawal(0, |w| w.last() && !w.lends() && other(w))
    }),
    ("last grant of a lender of the right on other items alone", |m| {
        let other = |w: &Withdrawal| w.stays(|l| l.lender == w.to && l.right == w.right);
        m.withdrawal(0, |w| w.last() && !w.lends() && other(w))
    }),
    ("last grant of no lender beside another's loans there", |m| {
        m.withdrawal(0, |w| w.last() && !w.lends() && w.stays(|l| w.of_key(l)))
    }),
    ("8 for a withdraw that would end loans", |m| {
        m.withdrawal(8, |w| w.depth.is_none() && w.ends() > 0)
    }),
    ("8 for a drop that would end loans", |m| {
        m.withdrawal(8, |w| w.depth.is_some() && w.ends() > 0)
    }),
    ("4 for one that would end loans", |m| m.withdrawal(4, |w| w.ends() > 0)),
    ("3 for depth 8 of a lender with a grant", |m| {
        m.withdrawal(3, |w| w.depth == Some(8) && !w.depths.is_empty() && w.lends())
    }),
    ("lend that the loans ended with a grant leave room for", |m| m.owed.room),
    ("shift back after the last dated loans ended with a grant", |m| m.owed.freed),
    ("a right given back, and a no where ended loans would give a yes", |m| m.owed.clean),
    ("a yes again by a loan further down", |m| m.owed.again),
];

/// What eight drops in the place of a withdraw come to, where loans end.
pub const WITHDRAWS: [&str; 1] = ["withdraw of several depths and of loans that eight drops equal"];
