//! The best chain, and of several one with the fewest persons: rounds by number of loans. Those whom a round raised
//! lend in the next, where that can still raise the person asked about. What is not greater than in an earlier round is
//! not followed: it gives neither a greater allowance nor fewer loans.

use super::{bits, loans, Best};
use crate::api::{CHAIN_PERSONS, NO_PERSON};

/// No place in the loans with a last shift.
const NONE: u16 = u16::MAX;

/// The loans of one item and right that carry.
struct Carrying<'a> {
    on: u32,
    right: u32,
    /// The open-ended loans of every item and right, rising.
    open: &'a [u32],
    /// Those of the item and right with a last shift, each with the place of the next of its lender.
    dated: Vec<(u32, u16)>,
    /// For each lender the place of the first of them.
    first: [u16; 64],
}

impl<'a> Carrying<'a> {
    fn new(table: &'a [u32], on: u32, right: u32) -> Carrying<'a> {
        let (open, with_last) = loans::carrying(table);
        let (mut dated, mut first) = (Vec::with_capacity(with_last.len()), [NONE; 64]);
        let key = loans::key(loans::code(0, on, right, 0, 0));
        for &loan in with_last.iter().filter(|&&loan| loans::key(loan) == key) {
            let next = std::mem::replace(&mut first[loans::lender(loan) as usize], dated.len() as u16);
            dated.push((loan, next));
        }
        Carrying { on, right, open, dated, first }
    }

    fn of_lender(&self, lender: usize) -> impl Iterator<Item = u32> + '_ {
        let open = loans::of_lender(self.open, lender as u32, self.on, self.right);
        let mut place = self.first[lender];
        let dated = std::iter::from_fn(move || {
            let &(loan, next) = self.dated.get(usize::from(place))?;
            place = next;
            Some(loan)
        });
        open.copied().chain(dated)
    }
}

struct Rounds {
    who: usize,
    /// For each person 0, or the greatest allowance so far and 1.
    best: [u8; 64],
    /// Those whom the last round raised.
    raised: u64,
    /// For each round and each person whom it raised, the lender of the last loan.
    from: [[u8; 64]; CHAIN_PERSONS],
    /// The last round that raised the person asked about.
    at: usize,
}

impl Rounds {
    fn of_grants(grants: &[u8], who: usize) -> Rounds {
        let mut rounds = Rounds { who, best: [0; 64], raised: 0, from: [[NO_PERSON; 64]; CHAIN_PERSONS], at: 0 };
        for (person, depths) in grants.iter().enumerate().filter(|(_, &depths)| depths != 0) {
            rounds.best[person] = 8 - depths.leading_zeros() as u8;
            rounds.raised |= 1 << person;
        }
        rounds
    }

    fn raise(&mut self, round: usize, person: usize, value: u8, lender: usize) {
        if value > self.best[person] {
            self.best[person] = value;
            self.raised |= 1 << person;
            self.from[round][person] = lender as u8;
            if person == self.who {
                self.at = round;
            }
        }
    }

    /// The round with one loan more.
    fn lend(&mut self, round: usize, loans: &Carrying) {
        let (before, lenders) = (self.best, std::mem::take(&mut self.raised));
        for lender in bits(lenders) {
            let left = before[lender] - 1;
            if left > self.best[self.who] {
                loans.of_lender(lender).for_each(|loan| {
                    let value = left.min(loans::depth(loan) as u8 + 1);
                    self.raise(round, loans::borrower(loan) as usize, value, lender);
                });
            }
        }
    }

    fn chain(&self) -> Option<Best> {
        let depth = u32::from(self.best[self.who]).checked_sub(1)?;
        let mut persons = [NO_PERSON; CHAIN_PERSONS];
        let mut person = self.who as u8;
        for round in (0..=self.at).rev() {
            persons[round] = person;
            person = self.from[round][usize::from(person)];
        }
        Some(Best { depth, persons, count: self.at + 1 })
    }
}

/// From the grants' bytes of one item and right, and the table of loans.
pub fn best(grants: &[u8], table: &[u32], who: usize, on: u32, right: u32) -> Option<Best> {
    let loans = Carrying::new(table, on, right);
    let mut rounds = Rounds::of_grants(grants, who);
    for round in 1..CHAIN_PERSONS {
        if rounds.raised == 0 {
            break;
        }
        rounds.lend(round, &loans);
    }
    rounds.chain()
}
