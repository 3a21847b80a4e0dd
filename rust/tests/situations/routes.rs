//! What the choice among chains is about: the best chains of a check, those of the fewest persons, longer
//! ones and ones with a loop beside them, one's own grant, and last shifts that end the shorter way.

use super::{of_key, BestChains};
use crate::model::{names_nobody_twice, BestChain, Journal};

/// What stands on an item and right, and the best chains to a person there.
struct Ways<'a> {
    best: &'a BestChains,
    /// The greatest depth of each person's grants.
    grants: [Option<u32>; 64],
    /// By borrower and lender, the greatest depth of the loans that carry.
    loans: Vec<[Option<u32>; 64]>,
    /// What the best chains end with.
    end: u32,
}

impl<'a> Ways<'a> {
    fn new(journal: &Journal, on: u32, right: u32, best: &'a BestChains, end: u32) -> Self {
        let mut grants = [None; 64];
        for start in journal.starts(on, right) {
            raise(&mut grants[start.person as usize], start.allowance);
        }
        let mut loans = vec![[None; 64]; 64];
        let of_key = journal.loans.iter().filter(|loan| of_key(loan, on, right));
        for loan in of_key.filter(|loan| loan.carries_in(journal.shift)) {
            raise(&mut loans[loan.borrower as usize][loan.lender as usize], loan.depth);
        }
        Self { best, grants, loans, end }
    }

    /// Whether one of the best chains is such, of those that end with these persons, the last first, and
    /// go on through what is admitted. Each loan takes one: so many loans from the end a grant or a loan
    /// must have so much more than the end.
    fn any(
        &self,
        persons: &mut Vec<u32>,
        admits: &dyn Fn(&[u32]) -> bool,
        is_one: &mut dyn FnMut(&[u32]) -> bool,
    ) -> bool {
        let first = persons[persons.len() - 1] as usize;
        let needed = Some(self.end + persons.len() as u32 - 1);
        if self.grants[first] >= needed && is_one(persons) {
            return true;
        }
        let allowance = |lender: u32| self.best[lender as usize].map(|best| best.allowance);
        let deep = |lender: &u32| self.loans[first][*lender as usize] >= needed;
        let lenders = (0..64).filter(deep).filter(|&lender| allowance(lender) > needed);
        for lender in lenders {
            persons.push(lender);
            let found = admits(persons) && self.any(persons, admits, is_one);
            persons.pop();
            if found {
                return true;
            }
        }
        false
    }
}

fn raise(depth: &mut Option<u32>, to: u32) {
    *depth = (*depth).max(Some(to));
}

/// A check that says yes, and its best chains.
pub struct Routes {
    /// The fewest persons of the best chains.
    persons: u32,
    end: u32,
    /// The greatest depth of the person's own grants.
    own: Option<u32>,
    /// More than one best chain has the fewest persons.
    several: bool,
    /// One has more, and names nobody twice.
    longer: bool,
    /// One names somebody twice.
    with_loop: bool,
    /// The best chains in the next shift, and were no loan past.
    next: Option<BestChain>,
    all: Option<BestChain>,
}

impl Routes {
    /// The check of a question within the limits, if it says yes; `best`, `next` and `all` are what the
    /// model answers now, in the next shift, and were no loan past.
    pub fn of(
        journal: &Journal,
        (who, on, right): (u32, u32, u32),
        [best, next, all]: [&BestChains; 3],
    ) -> Option<Self> {
        let BestChain { allowance: end, persons } = best[who as usize]?;
        let ways = Ways::new(journal, on, right, best, end);
        let fewest = persons as usize;
        let mut shortest = 0;
        ways.any(&mut vec![who], &|chain| chain.len() <= fewest, &mut |chain| {
            assert_eq!(chain.len(), fewest, "walked back: {chain:?} on {on} and {right}");
            shortest += 1;
            shortest > 1
        });
        assert!(shortest > 0, "no chain of {fewest} to {who} on {on} and {right}");
        let longer = ways.any(&mut vec![who], &names_nobody_twice, &mut |c| c.len() > fewest);
        let with_loop = ways.any(&mut vec![who], &|_| true, &mut |c| !names_nobody_twice(c));
        let (own, several) = (ways.grants[who as usize], shortest > 1);
        let [next, all] = [next, all].map(|best| best[who as usize]);
        Some(Self { persons, end, own, several, longer, with_loop, next, all })
    }

    /// So many persons, and a longer chain beside that ends with as much.
    fn beside_longer(&self, persons: u32) -> bool {
        self.persons == persons && self.longer
    }

    /// As much then, by this many persons.
    fn as_much(&self, then: Option<BestChain>) -> Option<u32> {
        then.filter(|best| best.allowance == self.end).map(|best| best.persons)
    }
}

/// A situation: what it is called, and which check is one.
type Situation = (&'static str, fn(&Routes) -> bool);

pub const SITUATIONS: [Situation; 17] = [
    ("several chains of the fewest persons", |r| r.several),
    ("several chains of the fewest persons beside a longer one", |r| r.several && r.longer),
    ("several chains of eight persons", |r| r.several && r.persons == 8),
    ("one chain of the fewest persons beside a longer one", |r| !r.several && r.longer),
    ("a best chain with a loop", |r| r.with_loop),
    ("a best chain with a loop and none longer without", |r| r.with_loop && !r.longer),
    ("own grant beside a longer chain that ends with as much", |r| r.beside_longer(1)),
    ("two persons beside a longer chain", |r| r.beside_longer(2)),
    ("three persons beside a longer chain", |r| r.beside_longer(3)),
    ("four persons beside a longer chain", |r| r.beside_longer(4)),
    ("five persons beside a longer chain", |r| r.beside_longer(5)),
    ("six persons beside a longer chain", |r| r.beside_longer(6)),
    ("seven persons beside a longer chain", |r| r.beside_longer(7)),
    ("own grant of less beside two persons", |r| r.own.is_some() && r.persons == 2),
    ("own grant of less beside three persons or more", |r| r.own.is_some() && r.persons > 2),
    ("more persons for a past loan", |r| r.as_much(r.all).is_some_and(|n| n < r.persons)),
    ("more persons in the next shift", |r| r.as_much(r.next) > Some(r.persons)),
];
