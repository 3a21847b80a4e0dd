//! How many chains there are to a person, by their loans and by the allowance that they end with.

use std::collections::BTreeMap;

use crate::model::{Journal, Loan};

/// The chains of one item and right, as lists of persons: of a person's grants, and of the carrying
/// loans of a lender to a borrower, the deepest counts.
pub struct Endings {
    /// Chains by number of loans, last person and last allowance.
    counts: [[[u64; 8]; 64]; 8],
    carrying: Vec<Loan>,
}

/// The chains with the greatest allowance to one person.
#[derive(Clone, Copy, Debug, PartialEq, Eq)]
pub struct Best {
    pub allowance: usize,
    /// The loans of the shortest of them, and how many are as short.
    pub loans: usize,
    pub shortest: u64,
    /// A longer one ends with the same allowance.
    pub longer: bool,
}

impl Endings {
    pub fn of(journal: &Journal, (item, right): (u32, u32)) -> Self {
        let of_key = journal.loans.iter().filter(|l| l.item == item && l.right == right);
        let carrying = of_key.filter(|l| l.carries_in(journal.shift)).copied().collect();
        let mut endings = Self { counts: [[[0; 8]; 64]; 8], carrying };
        for start in journal.starts(item, right) {
            // Starts come with rising depth, so the deepest stays.
            endings.counts[0][start.person as usize] = [0; 8];
            endings.counts[0][start.person as usize][start.allowance as usize] = 1;
        }
        let deepest = endings.deepest();
        (1..8).for_each(|loans| endings.lend(loans, &deepest));
        endings
    }

    /// The greatest depth of each lender's loans to each borrower.
    fn deepest(&self) -> BTreeMap<(usize, usize), usize> {
        let by_depth = |l: &Loan| ((l.lender as usize, l.borrower as usize), l.depth as usize);
        let mut deepest = BTreeMap::new();
        for (pair, depth) in self.carrying.iter().map(by_depth) {
            let standing = deepest.entry(pair).or_insert(depth);
            *standing = depth.max(*standing);
        }
        deepest
    }

    /// The chains with so many loans, from those with one loan less.
    fn lend(&mut self, loans: usize, deepest: &BTreeMap<(usize, usize), usize>) {
        for (&(lender, borrower), &depth) in deepest {
            for allowance in 1..8 {
                let before = self.counts[loans - 1][lender][allowance];
                let count = &mut self.counts[loans][borrower][depth.min(allowance - 1)];
                *count = count.saturating_add(before);
            }
        }
    }

    pub fn best(&self, who: u32) -> Option<Best> {
        let to = |loans: usize, allowance: usize| self.counts[loans][who as usize][allowance];
        let allowance = (0..8).rev().find(|&a| (0..8).any(|loans| to(loans, a) > 0))?;
        let loans = (0..8).find(|&loans| to(loans, allowance) > 0)?;
        let longer = (loans + 1..8).any(|more| to(more, allowance) > 0);
        Some(Best { allowance, loans, shortest: to(loans, allowance), longer })
    }

    /// Several lenders end a shortest best chain, and which of their loans is the last in the image
    /// is decided by last shifts.
    pub fn last_shifts_decide(&self, who: u32, best: Best) -> bool {
        let ends = |l: &&Loan| {
            let lender = l.lender as usize;
            let passes = |a: &usize| (a - 1).min(l.depth as usize) == best.allowance;
            let reached = |a: usize| self.counts[best.loans - 1][lender][a] > 0;
            l.borrower == who && (1..8).filter(passes).any(reached)
        };
        let last_by = |order: fn(&Loan) -> (u32, u32)| {
            self.carrying.iter().filter(ends).max_by_key(|&l| order(l)).map(|l| l.lender)
        };
        best.loans > 0 && last_by(|l| (l.last, l.lender)) != last_by(|l| (l.lender, 0))
    }
}
