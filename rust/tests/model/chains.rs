//! Chains: what each ends with and how many persons it has, by following every loan from every ending
//! found.

use std::collections::BTreeSet;

use super::journal::{Grant, Journal, Loan};

/// A person, the allowance that some chain to that person ends with, and its number of persons.
#[derive(Clone, Copy, Debug, PartialEq, Eq, PartialOrd, Ord)]
pub struct Ending {
    pub person: u32,
    pub allowance: u32,
    pub persons: u32,
}

/// The best chains to a person: the greatest last allowance of any, and the fewest persons of those
/// that end with it.
#[derive(Clone, Copy, Debug, PartialEq, Eq)]
pub struct BestChain {
    pub allowance: u32,
    pub persons: u32,
}

impl Journal {
    /// For each person, the greatest last allowance of any chain on the item and right.
    pub fn best(&self, item: u32, right: u32) -> [Option<u32>; 64] {
        self.best_in(self.shift, item, right)
    }

    /// The same in another shift; in shift 0 every loan carries.
    pub fn best_in(&self, shift: u32, item: u32, right: u32) -> [Option<u32>; 64] {
        let chains = self.best_chains_in(shift, item, right);
        chains.map(|chain| chain.map(|chain| chain.allowance))
    }

    /// For each person the best chains. K7: "Among chains with the greatest allowance the check now gives
    /// one with the fewest persons".
    pub fn best_chains(&self, item: u32, right: u32) -> [Option<BestChain>; 64] {
        self.best_chains_in(self.shift, item, right)
    }

    pub fn best_chains_in(&self, shift: u32, item: u32, right: u32) -> [Option<BestChain>; 64] {
        let mut best: [Option<BestChain>; 64] = [None; 64];
        for Ending { person, allowance, persons } in self.endings(shift, item, right) {
            let best = &mut best[person as usize];
            if best.is_none_or(|best| best.allowance < allowance) {
                *best = Some(BestChain { allowance, persons });
            }
        }
        best
    }

    /// Every person and allowance that a chain on the item and right ends with in that shift, each
    /// once. Chains of fewer persons come first, so each is found with the fewest that it takes.
    pub fn endings(&self, shift: u32, item: u32, right: u32) -> Vec<Ending> {
        let mut found = self.starts(item, right);
        let mut seen = [[false; 8]; 64];
        found.retain(|e| !std::mem::replace(mark(&mut seen, e), true));
        let mut next = 0;
        while next < found.len() {
            let longer = self.longer(found[next], shift, item, right);
            found.extend(longer.filter(|e| !std::mem::replace(mark(&mut seen, e), true)));
            next += 1;
        }
        found
    }

    /// The chains of one person: a0 = e0.
    pub fn starts(&self, item: u32, right: u32) -> Vec<Ending> {
        let at = |person, depth| Grant { item, right, person, depth };
        let on_key = self.grants.range(at(0, 0)..=at(63, 7));
        on_key.map(|g| Ending { person: g.person, allowance: g.depth, persons: 1 }).collect()
    }

    /// One loan more that carries in that shift: ai is the smaller of a(i-1) - 1 and ei, and a(i-1)
    /// must be at least 1.
    pub fn longer(
        &self,
        from: Ending,
        shift: u32,
        item: u32,
        right: u32,
    ) -> impl Iterator<Item = Ending> + '_ {
        let Ending { person: lender, allowance, persons } = from;
        let at = |borrower, depth, last| Loan { lender, item, right, borrower, depth, last };
        let loans = self.loans.range(at(0, 0, 0)..=at(63, 7, 255));
        let carrying = loans.filter(move |l| allowance >= 1 && l.carries_in(shift));
        carrying.map(move |l| Ending {
            person: l.borrower,
            allowance: (allowance - 1).min(l.depth),
            persons: persons + 1,
        })
    }

    /// The last allowance of the best chain through just these persons, if there is one.
    pub fn through(&self, persons: &[u8], item: u32, right: u32) -> Option<u32> {
        let (&first, rest) = persons.split_first()?;
        let mut lender = u32::from(first);
        let mut allowance = self.depths(lender, item, right).max()?;
        for &person in rest {
            let borrower = u32::from(person);
            let depth = self.lent(lender, item, right, borrower).into_iter().max()?;
            allowance = allowance.checked_sub(1)?.min(depth);
            lender = borrower;
        }
        Some(allowance)
    }
}

/// Whether a chain of these persons has no loop.
pub fn names_nobody_twice<P: Ord>(persons: &[P]) -> bool {
    persons.iter().collect::<BTreeSet<&P>>().len() == persons.len()
}

fn mark<'a>(seen: &'a mut [[bool; 8]; 64], ending: &Ending) -> &'a mut bool {
    &mut seen[ending.person as usize][ending.allowance as usize]
}
