//! How much was recorded, and how often what a search must decide came up.

use rights::lent::chains::Checked;

use crate::endings::{Best, Endings};
use crate::model::Journal;

/// Situations of a check of the chain unit.
const SITUATIONS: [&str; 8] = [
    "several shortest best chains",
    "several shortest best chains, and last shifts decide which loan stands last",
    "a longer chain with the same allowance",
    "a past loan of the item and right stands",
    "loans of other items and rights stand",
    "yes by a loan beside an own grant of a smaller depth",
    "no, where loans of the item and right carry",
    "refused, the buffer left as it was",
];

#[derive(Default)]
pub struct Totals {
    pub commands: u64,
    pub checks: u64,
    pub buffers: u64,
    pub damaged: u64,
    pub records: u64,
    /// Sweeps that end loans; none where an archive lacks the command.
    pub sweeps: Option<u64>,
    /// Checks with another depth than the model's best chains, or more persons than the shortest.
    apart: u64,
    /// Checks by persons of the chain, from 1 on.
    lengths: [u64; 8],
    situations: [u64; SITUATIONS.len()],
}

/// What the checks of one item and right have in common.
pub struct Key {
    endings: Endings,
    past: bool,
    carrying: bool,
    others: bool,
}

impl Key {
    pub fn of(journal: &Journal, key: (u32, u32)) -> Self {
        let any = |is: &dyn Fn(bool, bool) -> bool| {
            journal.loans.iter().any(|l| is((l.item, l.right) == key, l.carries_in(journal.shift)))
        };
        Self {
            endings: Endings::of(journal, key),
            past: any(&|of_key, carries| of_key && !carries),
            carrying: any(&|of_key, carries| of_key && carries),
            others: any(&|of_key, _| !of_key),
        }
    }
}

impl Totals {
    /// Counts the answer to a question; `own` is the greatest depth granted to the person itself.
    pub fn check(&mut self, key: &Key, who: u32, own: Option<u32>, checked: Checked) {
        let best = key.endings.best(who);
        let due = best.map_or((0, 0), |best| (best.allowance as u32, best.loans as u32 + 1));
        self.apart += u64::from((checked.depth, checked.persons) != due);
        let holds = |is: &dyn Fn(Best) -> bool| best.is_some_and(is);
        let several = holds(&|best| best.shortest > 1);
        let are = [
            several,
            several && holds(&|best| key.endings.last_shifts_decide(who, best)),
            holds(&|best| best.longer),
            key.past,
            key.others,
            checked.persons > 1 && own.is_some_and(|depth| depth < checked.depth),
            checked.persons == 0 && key.carrying,
        ];
        self.situations.iter_mut().zip(are).for_each(|(count, is)| *count += u64::from(is));
        let length = (checked.persons as usize).wrapping_sub(1);
        self.lengths.iter_mut().skip(length).take(1).for_each(|count| *count += 1);
    }

    /// Counts a chain buffer, and whether a refused check left it as it was.
    pub fn buffer(&mut self, left: bool) {
        self.buffers += 1;
        self.situations[SITUATIONS.len() - 1] += u64::from(left);
    }

    fn named(&self) -> impl Iterator<Item = (String, u64)> + '_ {
        let lengths = (1..).zip(self.lengths).map(|(n, count)| (format!("chain of {n}"), count));
        let sweeps = self.sweeps.map(|count| ("a sweep that ends loans".to_string(), count));
        lengths.chain(SITUATIONS.map(str::to_string).into_iter().zip(self.situations)).chain(sweeps)
    }

    pub fn print(&self) {
        println!("commands: {}", self.commands);
        println!("checks: {}", self.checks);
        println!("chain buffers: {}", self.buffers);
        println!("damaged images: {}", self.damaged);
        println!("records: {}", self.records);
        self.named().for_each(|(name, count)| println!("{name}: {count}"));
    }

    /// Every check had the greatest depth and the fewest persons.
    pub fn assert_fewest(&self) {
        assert_eq!(self.apart, 0, "checks without the greatest depth or the fewest persons");
    }

    /// Every situation came up.
    pub fn assert_broad(&self) {
        self.named().for_each(|(name, count)| assert!(count > 0, "no {name}"));
    }
}
