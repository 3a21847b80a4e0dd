//! How often a run came upon what shifts are about, loans for one shift, past loans and a shift that
//! goes back; and upon what allowsets, drops, withdrawn lenders, sweeps, the loans of a check and the
//! choice among its chains are about.

mod allow_sets;
mod drops;
mod picks;
mod routes;
mod sweeps;
mod withdrawals;

use crate::model::{BestChain, Command, Journal, Journals, Loan, Numbers};
use drops::{Bereft, Dropped};
use picks::Check;
use routes::Routes;
use sweeps::{Sweep, Swept, SweptOwed};
use withdrawals::{Memory, Owed, Withdrawal};

/// For each person, what the best chain ends with.
type Best = [Option<u32>; 64];

/// The same, and the fewest persons of the chains that end with it.
type BestChains = [Option<BestChain>; 64];

/// A command, the journals before it, and its numbers.
struct Moment<'a> {
    journals: &'a Journals,
    /// The chain unit's.
    journal: &'a Journal,
    command: Command,
    /// The chain unit's.
    number: u32,
    /// That of lists and rows, where they have the command.
    flat_number: Option<u32>,
    /// The last loan with a last shift that stood ended by a recall.
    freed: bool,
    /// It is the last accepted allowset again.
    again: bool,
    /// What there is to say where it is a drop.
    dropped: Option<Dropped<'a>>,
    /// It needs an edit grant that its `by` has dropped.
    bereft: bool,
    /// What there is to say where it is a withdraw or a drop.
    withdrawal: Option<Withdrawal<'a>>,
    /// What it owes to loans that have ended with a grant.
    owed: Owed,
    /// What there is to say where it is a sweep.
    sweep: Option<Sweep<'a>>,
    /// What it owes to sweeps.
    swept_owed: SweptOwed,
}

impl Moment<'_> {
    /// The loan of a lend that had this number.
    fn lend(&self, number: u32) -> Option<Loan> {
        let lend = matches!(self.command, Command::Lend { .. }) && self.number == number;
        self.command.loan().filter(|_| lend)
    }

    /// The loan of a recall that was accepted.
    fn recall(&self) -> Option<Loan> {
        let recall = matches!(self.command, Command::Recall { .. }) && self.number == 0;
        self.command.loan().filter(|_| recall)
    }

    /// A shift that had this number was from the first to the second.
    fn shift(&self, number: u32) -> Option<(u32, u32)> {
        match self.command {
            Command::Shift { now, .. } if self.number == number => Some((self.journal.shift, now)),
            _ => None,
        }
    }

    fn back(&self, number: u32) -> bool {
        self.shift(number).is_some_and(|(present, now)| now < present)
    }

    fn stands(&self, loan: &Loan) -> bool {
        self.journal.loans.contains(loan)
    }

    /// The same loan with another last shift stands.
    fn stands_otherwise(&self, loan: &Loan) -> bool {
        let with = |last| Loan { last, ..*loan };
        self.journal.loans.range(with(0)..=with(255)).any(|other| other != loan)
    }

    fn past(&self, loan: &Loan) -> bool {
        !loan.carries_in(self.journal.shift)
    }

    fn full(&self) -> bool {
        self.journal.loans.len() == 1024
    }

    fn dated(&self) -> bool {
        self.journal.dated().next().is_some()
    }
}

/// A situation: what it is called, and which command is one.
type Situation = (&'static str, fn(&Moment) -> bool);

const SITUATIONS: [Situation; 17] = [
    ("lend for the present shift alone", |m| {
        m.lend(0).is_some_and(|loan| loan.last != 0 && loan.last == m.journal.shift)
    }),
    ("lend of a loan that stands with another last", |m| {
        m.lend(0).is_some_and(|loan| !m.stands(&loan) && m.stands_otherwise(&loan))
    }),
    ("13 for the shift before", |m| {
        m.lend(13).is_some_and(|loan| loan.last + 1 == m.journal.shift)
    }),
    ("13 for a loan that stands", |m| m.lend(13).is_some_and(|loan| m.stands(&loan))),
    ("13 where 10 applies too", |m| m.lend(13).is_some_and(|loan| m.full() && !m.stands(&loan))),
    ("10 where past loans stand", |m| {
        m.lend(10).is_some_and(|_| m.journal.loans.iter().any(|loan| m.past(loan)))
    }),
    ("recall of a past loan", |m| m.recall().is_some_and(|loan| m.stands(&loan) && m.past(&loan))),
    ("recall that leaves the loan with another last", |m| {
        m.recall().is_some_and(|loan| m.stands(&loan) && m.stands_otherwise(&loan))
    }),
    ("recall of a loan that stands with another last alone", |m| {
        m.recall().is_some_and(|loan| !m.stands(&loan) && m.stands_otherwise(&loan))
    }),
    ("delete that ends a past loan", |m| match m.command {
        Command::Delete { on, .. } if m.number == 0 => {
            let names = |loan: &Loan| [loan.lender, loan.item, loan.borrower].contains(&on);
            m.journal.loans.iter().any(|loan| m.past(loan) && names(loan))
        }
        _ => false,
    }),
    ("shift that loans do not outlast", |m| {
        let ends = |now| m.journal.loans.iter().any(|loan| !m.past(loan) && !loan.carries_in(now));
        m.shift(0).is_some_and(|(_, now)| ends(now))
    }),
    ("the present shift again, a last shift standing", |m| {
        m.shift(0).is_some_and(|(present, now)| now == present && present != 0) && m.dated()
    }),
    ("12 for one shift back", |m| m.shift(12).is_some_and(|(present, now)| now + 1 == present)),
    ("12 for past loans alone", |m| {
        m.shift(12).is_some() && m.journal.dated().all(|loan| m.past(loan))
    }),
    ("8 where 12 applies too", |m| m.back(8) && m.dated()),
    ("shift back beside open-ended loans", |m| m.back(0) && !m.journal.loans.is_empty()),
    ("shift back after the last recall", |m| m.back(0) && m.freed),
];

/// What an answer owes to shifts.
const ANSWERS: [&str; 3] =
    ["yes, no in the next shift", "no for past loans", "less for past loans"];

#[derive(Clone, Debug, Default)]
pub struct Situations {
    commands: [u64; SITUATIONS.len()],
    answers: [u64; ANSWERS.len()],
    allow_sets: [u64; allow_sets::SITUATIONS.len()],
    drops: [u64; drops::SITUATIONS.len()],
    withdraws: [u64; drops::WITHDRAWS.len()],
    drop_answers: [u64; drops::ANSWERS.len()],
    picks: [u64; picks::SITUATIONS.len()],
    loans_end: [u64; withdrawals::ENDS.len()],
    loans_stay: [u64; withdrawals::OTHERS.len()],
    withdrawn: [u64; withdrawals::WITHDRAWS.len()],
    routes: [u64; routes::SITUATIONS.len()],
    sweeps: [u64; sweeps::SITUATIONS.len()],
    sweep_others: [u64; sweeps::OTHERS.len()],
    sweep_checks: [u64; sweeps::CHECKS.len()],
    freed: bool,
    /// The last accepted allowset.
    allow_set: Option<Command>,
    bereft: Bereft,
    memory: Memory,
    swept: Swept,
}

fn of_key(loan: &Loan, item: u32, right: u32) -> bool {
    (loan.item, loan.right) == (item, right)
}

/// What a situation of commands or of checks is called.
fn name<F>(situation: &(&'static str, F)) -> &'static str {
    situation.0
}

/// Adds 1 to the count of each that is one.
fn count(counts: &mut [u64], are: impl IntoIterator<Item = bool>) {
    for (count, is_one) in counts.iter_mut().zip(are) {
        *count += u64::from(is_one);
    }
}

impl Situations {
    /// Counts the command, which the journals have yet to be given.
    pub fn command(&mut self, journals: &Journals, command: Command, numbers: Numbers) {
        let (journal, number) = (&journals.chains, numbers.chains);
        let moment = Moment {
            journals,
            journal,
            command,
            number,
            flat_number: numbers.flat,
            freed: self.freed,
            again: self.allow_set == Some(command),
            dropped: Dropped::of(journal, command, number),
            bereft: self.bereft.names(command),
            withdrawal: Withdrawal::of(journal, command),
            owed: self.owed(journal, command, number),
            sweep: Sweep::of(journal, command),
            swept_owed: self.swept.owed(journal, command, number),
        };
        count(&mut self.commands, SITUATIONS.iter().map(|(_, is_one)| is_one(&moment)));
        let allow_sets = allow_sets::SITUATIONS.iter();
        count(&mut self.allow_sets, allow_sets.map(|(_, is_one)| is_one(&moment)));
        count(&mut self.drops, drops::SITUATIONS.iter().map(|(_, is_one)| is_one(&moment)));
        count(&mut self.loans_end, withdrawals::ENDS.iter().map(|(_, is_one)| is_one(&moment)));
        count(&mut self.loans_stay, withdrawals::OTHERS.iter().map(|(_, is_one)| is_one(&moment)));
        count(&mut self.sweeps, sweeps::SITUATIONS.iter().map(|(_, is_one)| is_one(&moment)));
        count(&mut self.sweep_others, sweeps::OTHERS.iter().map(|(_, is_one)| is_one(&moment)));
        self.keep(&moment);
    }

    fn owed(&self, journal: &Journal, command: Command, number: u32) -> Owed {
        if number == 0 {
            self.memory.owed(journal, command)
        } else {
            Owed::default()
        }
    }

    /// What later moments need to know of this one.
    fn keep(&mut self, moment: &Moment) {
        if matches!(moment.command, Command::AllowSet { .. }) && moment.number == 0 {
            self.allow_set = Some(moment.command);
        }
        let lent = moment.lend(0).is_some_and(|loan| loan.last != 0);
        let recalled = moment.recall().is_some_and(|loan| moment.journal.dated().eq([&loan]));
        self.freed = recalled || self.freed && !lent && !moment.back(0);
        self.bereft.take(moment.dropped.as_ref(), moment.number, moment.journal);
        self.memory.take(moment);
        self.swept.take(moment);
    }

    /// Counts a withdraw of so many depths and loans by the numbers of its eight drops.
    pub fn withdraw(&mut self, depths: usize, loans: usize, numbers: &[u32]) {
        let equal = depths > 1 && numbers.iter().all(|&number| number == 0);
        count(&mut self.withdraws, [equal, numbers.contains(&8)]);
        count(&mut self.withdrawn, [equal && loans > 0]);
    }

    /// Counts a check that a sweep left as it was, by the best chains to the person now, were no loan
    /// past, and in a later shift.
    pub fn stays(&mut self, best: [Option<BestChain>; 3]) {
        count(&mut self.sweep_checks, sweeps::stays(best));
    }

    /// Counts the answer to a question within the limits; `best` is what the model has there.
    pub fn answer(&mut self, journals: &Journals, question: (u32, u32, u32), best: BestChains) {
        count(&mut self.drop_answers, drops::owes(journals, question));
        let (journal, (who, on, right)) = (&journals.chains, question);
        let allowances = best.map(|chain| chain.map(|chain| chain.allowance));
        let check = Check::new(journal, question, allowances);
        count(&mut self.picks, picks::SITUATIONS.iter().map(|(_, is_one)| is_one(&check)));
        let in_shift = |shift| journal.best_chains_in(shift, on, right);
        let (next, all) = (in_shift(journal.shift + 1), in_shift(0));
        if let Some(routes) = Routes::of(journal, question, [&best, &next, &all]) {
            count(&mut self.routes, routes::SITUATIONS.iter().map(|(_, is_one)| is_one(&routes)));
        }
        let of_person = |best: BestChains| best[who as usize].map(|chain| chain.allowance);
        let [now, next, all] = [best, next, all].map(of_person);
        let owes = [
            now.is_some() && next.is_none(),
            now.is_none() && all.is_some(),
            now.is_some() && now < all,
        ];
        count(&mut self.answers, owes);
    }

    pub fn add(&mut self, other: &Self) {
        let commands = self.commands.iter_mut().chain(&mut self.answers);
        let drops = self.drops.iter_mut().chain(&mut self.withdraws).chain(&mut self.drop_answers);
        let into = commands.chain(&mut self.allow_sets).chain(drops).chain(&mut self.picks);
        let loans = self.loans_end.iter_mut().chain(&mut self.loans_stay);
        let into = into.chain(loans).chain(&mut self.withdrawn).chain(&mut self.routes);
        let sweeps = self.sweeps.iter_mut().chain(&mut self.sweep_others);
        let into = into.chain(sweeps).chain(&mut self.sweep_checks);
        into.zip(other.counts()).for_each(|(count, more)| *count += more);
    }

    fn counts(&self) -> impl Iterator<Item = &u64> {
        let drops = self.drops.iter().chain(&self.withdraws).chain(&self.drop_answers);
        self.commands
            .iter()
            .chain(&self.answers)
            .chain(&self.allow_sets)
            .chain(drops)
            .chain(&self.picks)
            .chain(&self.loans_end)
            .chain(&self.loans_stay)
            .chain(&self.withdrawn)
            .chain(&self.routes)
            .chain(&self.sweeps)
            .chain(&self.sweep_others)
            .chain(&self.sweep_checks)
    }

    /// Each situation by its name, and how often it came up.
    fn named(&self) -> impl Iterator<Item = (&'static str, u64)> + '_ {
        let commands = SITUATIONS.iter().map(name).chain(ANSWERS);
        let allow_sets = allow_sets::SITUATIONS.iter().map(name);
        let drops =
            drops::SITUATIONS.iter().map(name).chain(drops::WITHDRAWS).chain(drops::ANSWERS);
        let picks = picks::SITUATIONS.iter().map(name);
        let loans = withdrawals::ENDS.iter().chain(&withdrawals::OTHERS).map(name);
        let named = commands.chain(allow_sets).chain(drops).chain(picks);
        let named = named.chain(loans).chain(withdrawals::WITHDRAWS);
        let named = named.chain(routes::SITUATIONS.iter().map(name));
        let sweeps = sweeps::SITUATIONS.iter().chain(&sweeps::OTHERS).map(name);
        let named = named.chain(sweeps).chain(sweeps::CHECKS);
        named.zip(self.counts().copied())
    }

    pub fn print(&self) {
        self.named().for_each(|(name, count)| println!("{name}: {count}"));
    }

    /// Every situation came up.
    pub fn assert_broad(&self) {
        self.named().for_each(|(name, count)| assert!(count > 0, "no {name}"));
    }
}
