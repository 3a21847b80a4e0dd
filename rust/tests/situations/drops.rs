//! What drops are about: one depth of several, or the last one; chains that end with it; edit grants,
//! one's own among them; which number comes first; and units that differ from then on.

use std::collections::BTreeSet;

use super::{of_key, Best, Moment, Situation};
use crate::model::{Command, Grant, Journal, Journals, Loan};

/// A drop, and the journal before it.
pub struct Dropped<'a> {
    journal: &'a Journal,
    by: u32,
    to: u32,
    on: u32,
    right: u32,
    depth: u32,
    /// The depths granted to the person.
    depths: Vec<u32>,
    /// The answers before and after it; none where no grant ends.
    best: Option<(Best, Best)>,
}

impl<'a> Dropped<'a> {
    /// The drop, if the command is one.
    pub fn of(journal: &'a Journal, command: Command, number: u32) -> Option<Self> {
        let Command::Drop { by, to, on, right, depth } = command else {
            return None;
        };
        let grant = Grant { item: on, right, person: to, depth };
        let depths: Vec<u32> = journal.depths(to, on, right).collect();
        let best = (number == 0 && journal.grants.contains(&grant)).then(|| {
            let mut key = key_of(journal, on, right);
            let before = key.best(on, right);
            key.grants.remove(&grant);
            // With the last depth the person's loans there end.
            key.loans.retain(|loan| loan.lender != to || depths != [depth]);
            (before, key.best(on, right))
        });
        Some(Self { journal, by, to, on, right, depth, depths, best })
    }

    fn stands(&self) -> bool {
        self.depths.contains(&self.depth)
    }

    /// The one depth that the person has.
    fn last(&self) -> bool {
        self.depths == [self.depth]
    }

    fn below(&self) -> bool {
        self.depths.iter().any(|&depth| depth > self.depth)
    }

    fn above(&self) -> bool {
        self.depths.iter().any(|&depth| depth < self.depth)
    }

    /// Whether the answers to the person before and after are such.
    fn person(&self, are: fn(Option<u32>, Option<u32>) -> bool) -> bool {
        let at = self.to as usize;
        self.best.is_some_and(|(before, after)| are(before[at], after[at]))
    }

    /// Whether the answers to some other person are such.
    fn other(&self, are: fn(Option<u32>, Option<u32>) -> bool) -> bool {
        let others = |at: &usize| *at != self.to as usize;
        self.best.is_some_and(|(before, after)| {
            (0..64).filter(others).any(|at| are(before[at], after[at]))
        })
    }

    /// A loan of the person stands there.
    fn lends(&self) -> bool {
        let Self { to: lender, on: item, right, .. } = *self;
        let at = |borrower| Loan { lender, item, right, borrower, depth: 0, last: 0 };
        self.journal.loans.range(at(0)..at(64)).next().is_some()
    }

    fn edit(&self) -> bool {
        self.right == 0
    }

    fn own(&self) -> bool {
        self.by == self.to
    }

    fn by_lives(&self) -> bool {
        self.journal.lives(self.by)
    }

    fn to_lives(&self) -> bool {
        self.journal.lives(self.to)
    }

    fn on_lives(&self) -> bool {
        self.journal.lives(self.on)
    }

    fn all_live(&self) -> bool {
        self.by_lives() && self.to_lives() && self.on_lives()
    }

    fn edits(&self) -> bool {
        self.journal.granted(self.by, self.on, 0)
    }

    /// The depth is the one number beyond its limit.
    fn too_deep(&self) -> bool {
        self.depth == 8 && [self.by, self.to, self.on].iter().all(|&n| n < 64) && self.right < 8
    }
}

/// The grants and loans of one item and right.
pub fn key_of(journal: &Journal, item: u32, right: u32) -> Journal {
    let at = |person, depth| Grant { item, right, person, depth };
    let grants = journal.grants.range(at(0, 0)..=at(63, 7)).copied().collect();
    let loans = journal.loans.iter().filter(|loan| of_key(loan, item, right)).copied().collect();
    Journal { live: BTreeSet::new(), grants, loans, shift: journal.shift }
}

/// Who dropped their own last edit grant on which item, and has none there since.
#[derive(Clone, Debug, Default)]
pub struct Bereft(BTreeSet<(u32, u32)>);

impl Bereft {
    /// By the journal before the command.
    pub fn take(&mut self, dropped: Option<&Dropped>, number: u32, journal: &Journal) {
        self.0.retain(|&(person, item)| {
            journal.lives(person) && journal.lives(item) && !journal.granted(person, item, 0)
        });
        let own = dropped.filter(|d| number == 0 && d.edit() && d.own() && d.last());
        self.0.extend(own.map(|d| (d.by, d.on)));
    }

    /// The command needs an edit grant that one of them has dropped.
    pub fn names(&self, command: Command) -> bool {
        let item = match command {
            Command::Delete { on, .. }
            | Command::Allow { on, .. }
            | Command::AllowSet { on, .. }
            | Command::Withdraw { on, .. }
            | Command::Drop { on, .. } => on,
            Command::Shift { .. } => 0,
            Command::Create { .. }
            | Command::Lend { .. }
            | Command::Recall { .. }
            | Command::Sweep { .. } => return false,
        };
        self.0.contains(&(command.by(), item))
    }
}

impl Moment<'_> {
    /// Whether it is a drop with this number of which that holds.
    fn drop(&self, number: u32, holds: impl Fn(&Dropped) -> bool) -> bool {
        self.number == number && self.dropped.as_ref().is_some_and(holds)
    }

    /// What lists and rows answered, and the chain unit.
    fn parted(&self, flat: u32, chains: u32) -> bool {
        (self.flat_number, self.number) == (Some(flat), chains)
    }

    /// The item of a command that all units have lives for lists and rows, and for the chain unit.
    fn item_lives(&self, for_flat: bool, for_chains: bool) -> bool {
        let on = match self.command {
            Command::Delete { on, .. }
            | Command::Allow { on, .. }
            | Command::AllowSet { on, .. }
            | Command::Withdraw { on, .. }
            | Command::Create { on, .. } => on,
            _ => return false,
        };
        let Journals { flat, chains } = self.journals;
        (flat.lives(on), chains.lives(on)) == (for_flat, for_chains)
    }
}

fn falls(before: Option<u32>, after: Option<u32>) -> bool {
    after.is_some() && after < before
}

fn ends(before: Option<u32>, after: Option<u32>) -> bool {
    before.is_some() && after.is_none()
}

pub const SITUATIONS: [Situation; 31] = [
    ("drop that lowers the person's depth", |m| m.drop(0, |d| d.person(falls))),
    ("drop that closes the drawer", |m| m.drop(0, |d| d.person(ends))),
    ("drop of the last depth of one who has a loan", |m| {
        m.drop(0, |d| d.last() && d.person(|_, after| after.is_some()))
    }),
    ("drop below a depth that stands", |m| m.drop(0, |d| d.stands() && d.below())),
    ("drop between two depths that stand", |m| m.drop(0, |d| d.stands() && d.below() && d.above())),
    ("drop of a depth that does not stand beside others", |m| {
        m.drop(0, |d| !d.stands() && !d.depths.is_empty())
    }),
    ("drop where no depth stands", |m| m.drop(0, |d| d.depths.is_empty())),
    ("drop that ends another's chains", |m| m.drop(0, |d| d.other(ends))),
    ("drop that lowers another's depth", |m| m.drop(0, |d| d.other(falls))),
    ("drop of a lender's depth beside others", |m| {
        m.drop(0, |d| d.lends() && d.stands() && !d.last())
    }),
    ("drop of a lender's last depth", |m| m.drop(0, |d| d.lends() && d.last())),
    ("drop of an edit grant beside others", |m| m.drop(0, |d| d.edit() && d.stands() && !d.last())),
    ("drop of another's last edit grant", |m| m.drop(0, |d| d.edit() && d.last() && !d.own())),
    ("drop of one's own last edit grant", |m| m.drop(0, |d| d.edit() && d.last() && d.own())),
    ("8 for a drop after that", |m| m.bereft && m.drop(8, |_| true)),
    ("8 for another command after that", |m| m.bereft && m.number == 8 && m.dropped.is_none()),
    ("3 for depth 8 alone", |m| m.drop(3, |d| d.too_deep() && d.all_live() && d.edits())),
    ("3 for depth 8 where 4 applies too", |m| m.drop(3, |d| d.too_deep() && !d.by_lives())),
    ("3 for depth 8 where 5 applies too", |m| {
        m.drop(3, |d| d.too_deep() && d.by_lives() && !(d.to_lives() && d.on_lives()))
    }),
    ("3 for depth 8 where 8 applies too", |m| {
        m.drop(3, |d| d.too_deep() && d.all_live() && !d.edits())
    }),
    ("4 for a drop alone", |m| m.drop(4, |d| d.to_lives() && d.on_lives())),
    ("4 for a drop where 5 applies too", |m| m.drop(4, |d| !(d.to_lives() && d.on_lives()))),
    ("5 for a drop, to alone", |m| m.drop(5, |d| d.on_lives() && d.edits())),
    ("5 for a drop, on alone", |m| m.drop(5, |d| d.to_lives())),
    ("5 for a drop where 8 applies too", |m| m.drop(5, |d| d.on_lives() && !d.edits())),
    ("8 for a grant that stands", |m| m.drop(8, |d| d.stands())),
    ("8 for a grant that does not stand", |m| m.drop(8, |d| !d.stands())),
    ("0 in lists and rows, 8 in the chain unit", |m| m.parted(0, 8)),
    ("8 in lists and rows, 0 in the chain unit", |m| m.parted(8, 0)),
    ("an item that lives in lists and rows alone", |m| m.item_lives(true, false)),
    ("an item that lives in the chain unit alone", |m| m.item_lives(false, true)),
];

/// What eight drops in the place of a withdraw come to.
pub const WITHDRAWS: [&str; 2] =
    ["withdraw of several depths that eight drops equal", "withdraw whose drops end in 8"];

/// What an answer owes to drops.
pub const ANSWERS: [&str; 2] = [
    "yes in lists and rows, no in the chain unit",
    "no in lists and rows, yes by a grant in the chain unit",
];

/// Which of `ANSWERS` the answer to a question within the limits is.
pub fn owes(journals: &Journals, (who, on, right): (u32, u32, u32)) -> [bool; ANSWERS.len()] {
    let Journals { flat, chains } = journals;
    let granted = flat.granted(who, on, right);
    [
        granted && chains.best(on, right)[who as usize].is_none(),
        !granted && chains.granted(who, on, right),
    ]
}
