//! What the loans are about by which a check is answered: how many are in use, and how many of them
//! carry for the item and right; what stands beside those; which of them the answer needs; and longer
//! chains that raise it.

use super::{of_key, Best};
use crate::model::{Journal, Loan};

/// A check, and the loans that stand.
pub struct Check<'a> {
    journal: &'a Journal,
    who: u32,
    on: u32,
    right: u32,
    best: Best,
    /// The carrying loans of every item and right, in the order of their words.
    carrying: Vec<Loan>,
    /// Those of the item and right.
    picked: Vec<Loan>,
    /// The past loans of the item and right.
    past: Vec<Loan>,
    /// For each number of loans from 0 to 7, what the best chain of so many to the person ends with.
    lengths: Vec<Option<u32>>,
}

impl<'a> Check<'a> {
    /// The check of a question within the limits; `best` is what the model answers.
    pub fn new(journal: &'a Journal, (who, on, right): (u32, u32, u32), best: Best) -> Self {
        let of_key = |loan: &Loan| of_key(loan, on, right);
        let (mut carrying, mut past): (Vec<Loan>, Vec<Loan>) =
            journal.loans.iter().partition(|loan| loan.carries_in(journal.shift));
        // The journal has them in the order of the rest of their words.
        carrying.sort_by_key(|loan| loan.last);
        past.retain(of_key);
        let picked: Vec<Loan> = carrying.iter().copied().filter(of_key).collect();
        let lengths = lengths(journal, on, right, &picked);
        let of_all = lengths.iter().flat_map(|best| (0..).zip(*best));
        assert_eq!(best_of(of_all), best, "by the carrying loans of {on} and {right} alone");
        let lengths = lengths.iter().map(|best| best[who as usize]).collect();
        Self { journal, who, on, right, best, carrying, picked, past, lengths }
    }

    fn in_use(&self) -> usize {
        self.journal.loans.len()
    }

    /// So many loans carry for the check.
    fn carry(&self) -> usize {
        self.picked.len()
    }

    /// The open-ended ones of them.
    fn open_ended(&self) -> usize {
        self.picked.iter().filter(|loan| loan.last == 0).count()
    }

    /// Some are open-ended, and some have a last shift.
    fn both(&self) -> bool {
        (1..self.carry()).contains(&self.open_ended())
    }

    /// Of the open-ended loans, or of the others that carry, 31 in a row are of the item and right, or
    /// of others: 16 of them from a multiple of 16 on.
    fn row(&self, picked: bool) -> bool {
        let kind = |loan: &Loan| (of_key(loan, self.on, self.right), loan.last == 0);
        let mut rows = self.carrying.chunk_by(|a, b| kind(a) == kind(b));
        rows.any(|row| row.len() >= 31 && kind(&row[0]).0 == picked)
    }

    fn answer(&self) -> Option<u32> {
        self.best[self.who as usize]
    }

    /// What a grant alone answers.
    fn granted(&self) -> Option<u32> {
        self.lengths[0]
    }

    /// What the best chain by the loan ends with if it is to the person, were it of the item and right.
    fn by(&self, loan: &Loan) -> Option<u32> {
        longer(&self.best, loan).filter(|_| loan.borrower == self.who)
    }

    /// The loans to the person by which the best chains end, by their places among those that carry;
    /// none where a grant alone answers as much.
    fn ends(&self) -> impl Iterator<Item = usize> + '_ {
        let places = 0..self.carry();
        let is_one = |place: &usize| self.by(&self.picked[*place]) == self.answer();
        places.filter(move |place| self.answer() > self.granted() && is_one(place))
    }

    /// The one without which the answer is a no, or less.
    fn needed(&self) -> Option<usize> {
        let mut ends = self.ends();
        ends.next().filter(|_| ends.next().is_none())
    }

    /// Of several that carry the answer needs the one at this place.
    fn needs(&self, place: usize) -> bool {
        self.carry() > 1 && self.needed() == Some(place)
    }

    /// The loan at the place stands beside such a one.
    fn beside(&self, place: usize, loans: &[Loan], such: fn(&Loan, &Loan) -> bool) -> bool {
        loans.iter().any(|other| such(&self.picked[place], other))
    }

    /// Such a loan would raise the answer, were it of the item and right.
    fn misses(&self, such: impl Fn(&Loan) -> bool) -> bool {
        self.carrying.iter().any(|loan| self.by(loan) > self.answer() && such(loan))
    }

    /// The loans of the shortest chain that ends with the answer.
    fn loans(&self) -> usize {
        let shortest = self.lengths.iter().position(|&end| end == self.answer());
        shortest.expect("a chain of up to seven loans")
    }

    /// What the best chain of 1 to so many loans ends with.
    fn within(&self, loans: usize) -> Option<u32> {
        self.lengths[1..=loans].iter().copied().max().flatten()
    }

    /// What the best chain of fewer loans ends with, though not of none.
    fn shorter(&self) -> Option<u32> {
        self.loans().checked_sub(1).and_then(|fewer| self.within(fewer))
    }
}

/// For each number of loans from 0 to 7, what the best chains of so many end with.
fn lengths(journal: &Journal, on: u32, right: u32, loans: &[Loan]) -> Vec<Best> {
    let grants = journal.starts(on, right).into_iter().map(|e| (e.person, Some(e.allowance)));
    let lengths = std::iter::successors(Some(best_of(grants)), |shorter| {
        Some(best_of(loans.iter().map(|loan| (loan.borrower, longer(shorter, loan)))))
    });
    lengths.take(8).collect()
}

/// For each person the greatest.
fn best_of(ends: impl Iterator<Item = (u32, Option<u32>)>) -> Best {
    let mut best = [None; 64];
    for (person, end) in ends {
        best[person as usize] = best[person as usize].max(end);
    }
    best
}

/// What the best of these chains ends with, longer by the loan.
fn longer(shorter: &Best, loan: &Loan) -> Option<u32> {
    Some(shorter[loan.lender as usize]?.checked_sub(1)?.min(loan.depth))
}

/// The first is for more, between the same two.
fn deeper(a: &Loan, b: &Loan) -> bool {
    (a.lender, a.borrower) == (b.lender, b.borrower) && a.depth > b.depth
}

/// They differ in the last shift alone.
fn same(a: &Loan, b: &Loan) -> bool {
    Loan { last: b.last, ..*a } == *b
}

/// A situation: what it is called, and which check is one.
type Situation = (&'static str, fn(&Check) -> bool);

pub const SITUATIONS: [Situation; 31] = [
    ("check with 63 loans in use", |c| c.in_use() == 63),
    ("check with 64 loans in use", |c| c.in_use() == 64),
    ("check with 65 loans in use", |c| c.in_use() == 65),
    ("check with 1,024 loans in use", |c| c.in_use() == 1024),
    ("loans in use, and none carries for the check", |c| c.in_use() > 0 && c.carry() == 0),
    ("1 loan carries for the check", |c| c.carry() == 1),
    ("15 loans carry for the check", |c| c.carry() == 15),
    ("16 loans carry for the check", |c| c.carry() == 16),
    ("17 loans carry for the check", |c| c.carry() == 17),
    ("32 loans carry for the check", |c| c.carry() == 32),
    ("64 loans carry for the check", |c| c.carry() == 64),
    ("more than 64 loans carry for the check", |c| c.carry() > 64),
    ("31 loans in a row carry for the check", |c| c.row(true)),
    ("31 of others in a row beside carrying loans", |c| c.carry() > 0 && c.row(false)),
    ("past loans beside carrying ones", |c| c.carry() > 0 && !c.past.is_empty()),
    ("past loans and no carrying ones", |c| c.carry() == 0 && !c.past.is_empty()),
    ("carrying loans, open-ended and with a last shift", |c| c.both()),
    ("less than by a loan of the item with another right", |c| {
        c.misses(|loan| loan.item == c.on && loan.right != c.right)
    }),
    ("less than by a loan of the right on another item", |c| {
        c.misses(|loan| loan.item != c.on && loan.right == c.right)
    }),
    ("yes by the first carrying loan", |c| c.needs(0)),
    ("yes by the last carrying loan", |c| c.needs(c.carry().saturating_sub(1))),
    ("yes by a carrying loan after the 64th", |c| c.needed().is_some_and(|place| place >= 64)),
    ("yes by the last open-ended loan before others", |c| c.both() && c.needs(c.open_ended() - 1)),
    ("yes by the first loan after open-ended ones", |c| c.both() && c.needs(c.open_ended())),
    ("yes by the deeper of two loans between the same", |c| {
        c.needed().is_some_and(|place| c.beside(place, &c.picked, deeper))
    }),
    ("yes by a loan that stands with a past last shift too", |c| {
        c.ends().any(|place| c.beside(place, &c.past, same))
    }),
    ("yes by loans, deeper than the person's own grant", |c| {
        c.granted().is_some() && c.answer() > c.granted()
    }),
    ("yes by eight persons and no fewer", |c| c.answer().is_some() && c.loans() == 7),
    ("yes, deeper by a longer chain", |c| c.shorter().is_some()),
    ("the same after chains that do not raise it", |c| {
        c.shorter().is_some() && c.loans() > 2 && c.within(c.loans() - 2) == c.shorter()
    }),
    ("the same by one, as deep as so many loans leave", |c| {
        let depth = 7 - c.loans() as u32;
        c.answer() == Some(depth) && c.shorter().is_some_and(|less| less + 1 == depth)
    }),
];
