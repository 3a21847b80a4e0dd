//! A best chain of open-ended loans: persons are settled from the greatest allowance down, so each loan is followed
//! once. An allowance falls at every loan, so what a person has at its level can't be raised by a later one. Of several
//! best chains it need not be one with the fewest persons.

use super::loans::{borrower, depth, of_lender};
use super::{bits, Best};
use crate::api::{CHAIN_PERSONS, NO_PERSON};

pub struct Reach {
    /// For each person 0, or the greatest allowance of any chain and 1.
    best: [u8; 64],
    /// For each person the lender of the last loan of such a chain.
    from: [u8; 64],
    /// For each value of `best` the persons who had it at some time.
    at: [u64; 9],
}

impl Reach {
    fn of_grants(grants: &[u8]) -> Reach {
        let mut reach = Reach { best: [0; 64], from: [NO_PERSON; 64], at: [0; 9] };
        for (person, depths) in grants.iter().enumerate().filter(|(_, &depths)| depths != 0) {
            reach.raise(person, 8 - depths.leading_zeros() as u8, NO_PERSON);
        }
        reach
    }

    fn raise(&mut self, person: usize, value: u8, lender: u8) {
        if value > self.best[person] {
            self.best[person] = value;
            self.from[person] = lender;
            self.at[value as usize] |= 1 << person;
        }
    }

    fn lend_from(&mut self, lender: usize, loans: &[u32], on: u32, right: u32) {
        let left = self.best[lender] - 1;
        for &loan in of_lender(loans, lender as u32, on, right) {
            self.raise(borrower(loan) as usize, left.min(depth(loan) as u8 + 1), lender as u8);
        }
    }

    fn settle(&mut self, loans: &[u32], level: u8, on: u32, right: u32) {
        for lender in bits(self.at[level as usize]) {
            if self.best[lender] == level {
                self.lend_from(lender, loans, on, right);
            }
        }
    }

    /// From the grants' bytes of one item and right, and the loans in use.
    pub fn new(grants: &[u8], loans: &[u32], on: u32, right: u32) -> Reach {
        let mut reach = Reach::of_grants(grants);
        for level in (2..=8).rev() {
            reach.settle(loans, level, on, right);
        }
        reach
    }

    /// A best chain of the person; none where no chain exists.
    pub fn chain(&self, who: usize) -> Option<Best> {
        let depth = u32::from(self.best[who]).checked_sub(1)?;
        let mut persons = [NO_PERSON; CHAIN_PERSONS];
        let mut count = 0;
        let mut person = who as u8;
        while person != NO_PERSON {
            persons[count] = person;
            count += 1;
            person = self.from[person as usize];
        }
        persons[..count].reverse();
        Some(Best { depth, persons, count })
    }
}
