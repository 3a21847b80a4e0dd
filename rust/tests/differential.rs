//! Lists, rows and chain unit against the model, command by command: the chain unit against the
//! journal, lists and rows against the journal that is fed only the commands they have.

mod engine;
mod generator;
mod images;
mod judge;
mod model;
mod situations;

use engine::{check_chains, give_chains, Flat};
use generator::{seed, Bias, Generator, Trace, BIASES};
use images::Images;
use judge::{flat_answer, judge_chain};
use model::{
    head_of, image_of, loans_image, BestChain, Command, GrantLayout, Head, Journal, Journals,
    Layout, ListLayout, RowLayout,
};
use rights::lent;
use situations::Situations;

/// How often each thing came up.
#[derive(Clone, Debug, Default)]
struct Counts {
    commands: u64,
    checks: u64,
    /// Commands by number.
    numbers: [u64; 15],
    /// Checks of the chain unit that said yes, by depth and by number of persons.
    depths: [u64; 8],
    persons: [u64; 9],
    situations: Situations,
}

impl Counts {
    fn add(&mut self, other: &Counts) {
        self.commands += other.commands;
        self.checks += other.checks;
        sum(&mut self.numbers, &other.numbers);
        sum(&mut self.depths, &other.depths);
        sum(&mut self.persons, &other.persons);
        self.situations.add(&other.situations);
    }

    /// Every number of a command, every depth and every length of a chain came up, and every situation
    /// that shifts, sets of items, drops, withdrawn lenders, sweeps, the loans of a check and the choice
    /// among its chains are about.
    fn assert_broad(&self) {
        let given = [0, 3, 4, 5, 6, 7, 8, 9, 10, 12, 13, 14];
        assert!(given.iter().all(|&n| self.numbers[n] > 0), "numbers {:?}", self.numbers);
        assert!(self.depths.iter().all(|&n| n > 0), "depths {:?}", self.depths);
        assert!(self.persons[1..].iter().all(|&n| n > 0), "persons {:?}", self.persons);
        self.situations.assert_broad();
    }
}

fn sum(into: &mut [u64], from: &[u64]) {
    for (a, b) in into.iter_mut().zip(from) {
        *a += b;
    }
}

/// One list of commands, from fresh units on.
struct Run {
    generator: Generator,
    journals: Journals,
    images: Images,
    expected: Images,
    /// No drop was accepted.
    without_drop: bool,
    counts: Counts,
}

impl Run {
    fn new(seed: u64, bias: Bias) -> Self {
        let journals = Journals::fresh();
        let expected = Images::of_both(&journals);
        let images = Images::fresh();
        images.compare(&expected);
        let (generator, counts) = (Generator::new(seed, bias), Counts::default());
        Self { generator, journals, images, expected, without_drop: true, counts }
    }

    fn command(&mut self, step: u32) {
        let command = self.generator.command(&self.journals, step);
        let numbers = self.journals.answer(command);
        self.counts.situations.command(&self.journals, command, numbers);
        let done = numbers.chains == 0;
        self.without_drop &= !(done && matches!(command, Command::Drop { .. }));
        let drops = if done { self.drops_of(command) } else { None };
        let swept = (numbers.count > 0).then(|| Swept::new(&self.journals.chains, &self.images));
        assert_eq!(self.journals.give(command), numbers);
        if done || numbers.flat == Some(0) {
            self.expected = Images::of_both(&self.journals);
        }
        self.images.give_each(command, numbers);
        self.images.compare(&self.expected);
        if let Some((grants, loans)) = drops {
            assert!(grants == self.images.grants && loans == self.images.loans, "{command:?}");
        }
        if let Some(before) = swept {
            self.checks_stay(&before, numbers.count);
        }
        self.counts.commands += 1;
        self.counts.numbers[numbers.chains as usize] += 1;
    }

    /// Gives the eight drops of a withdraw, one after another, to a copy of the chain unit; numbers and
    /// images are the journal's. The images, where none was refused.
    fn drops_of(&mut self, command: Command) -> Option<(Vec<u8>, Vec<u32>)> {
        let Command::Withdraw { to, on, right, .. } = command else {
            return None;
        };
        let mut journal = self.journals.chains.clone();
        let (mut grants, mut loans) = (self.images.grants.clone(), self.images.loans.clone());
        let give = |drop| {
            let returned = journal.give(drop);
            assert_eq!(give_chains(&mut grants, &mut loans, drop), returned, "{drop:?}");
            returned.0
        };
        let numbers: Vec<u32> = command.single_drops().into_iter().map(give).collect();
        let left = (image_of::<GrantLayout>(&journal), loans_image(&journal));
        assert!((&grants, &loans) == (&left.0, &left.1), "drops of {command:?}");
        let chains = &self.journals.chains;
        let (depths, loans) =
            (chains.depths(to, on, right).count(), chains.made(to, on, right).count());
        self.counts.situations.withdraw(depths, loans, &numbers);
        Some(left).filter(|_| numbers == [0; 8])
    }

    /// "Loans before = loans after + that count, and no check with all else equal, at this shift number
    /// or a higher one, changes its yes, no or depth", nor its number of persons: every person on the
    /// item and right of a loan that a sweep has ended, in the present shift and in later ones.
    fn checks_stay(&mut self, before: &Swept, count: u32) {
        let after = &self.images.loans;
        assert_eq!(head_of(&before.loans).count, head_of(after).count + count as usize);
        let random = &mut self.generator.random;
        let ended = before.journal.past().nth(random.below(count) as usize).expect("a past loan");
        let (on, right) = (ended.item, ended.right);
        let present = before.journal.shift;
        let later = present + random.below(256 - present);
        let best = |shift| before.journal.best_chains_in(shift, on, right);
        let (now, all) = (best(present), best(0));
        for shift in [present, (present + 1).min(255), later, 255] {
            let (one, other) = (in_shift(&before.loans, shift), in_shift(after, shift));
            let then = best(shift);
            for who in 0..64 {
                let question = (who, on, right);
                let grants = &self.images.grants;
                let checked = check_chains(grants, &one, question, &mut [7; 8]);
                let stays = check_chains(grants, &other, question, &mut [7; 8]);
                assert_eq!(stays, checked, "{question:?} in shift {shift}");
                let due = then[who as usize].map_or((0, 0), |best| (best.allowance, best.persons));
                assert_eq!((stays.depth, stays.persons), due, "{question:?} in shift {shift}");
                self.counts.checks += 2;
                let who = who as usize;
                self.counts.situations.stays([now[who], all[who], then[who]]);
            }
        }
    }

    /// Checks of a few questions; no check changes an image.
    fn sample(&mut self) {
        for n in 0..3 {
            let journal = &self.journals.chains;
            let question = self.generator.question(journal);
            let (who, on, right) = question;
            let known = who < 64 && on < 64 && right < 8;
            let best = known.then(|| journal.best_chains(on, right));
            self.check(question, best.and_then(|best| best[who as usize]));
            if let Some(best) = best.filter(|_| n == 0) {
                self.counts.situations.answer(&self.journals, question, best);
            }
        }
        self.images.compare(&self.expected);
    }

    /// The checks of every person on the item and right.
    fn key(&mut self, on: u32, right: u32) {
        let best = self.journals.chains.best_chains(on, right);
        for who in 0..64 {
            self.check((who, on, right), best[who as usize]);
        }
    }

    /// The checks of every person, item and right.
    fn everything(&mut self) {
        for key in 0..64 * 8 {
            self.key(key / 8, key % 8);
        }
        self.images.compare(&self.expected);
    }

    fn check(&mut self, question: (u32, u32, u32), best: Option<BestChain>) {
        let flat = flat_answer(&self.journals.flat, question);
        assert_eq!(ListLayout::check(&self.images.lists, question), flat, "{question:?}");
        assert_eq!(RowLayout::check(&self.images.rows, question), flat, "{question:?}");
        let before = self.generator.random.next().to_le_bytes();
        let mut chain = before;
        let images = &self.images;
        let checked = check_chains(&images.grants, &images.loans, question, &mut chain);
        judge_chain(&self.journals.chains, question, best, checked, before, chain);
        self.counts.checks += 1;
        if checked.persons > 0 {
            self.counts.depths[checked.depth as usize] += 1;
            self.counts.persons[checked.persons as usize] += 1;
        }
    }

    /// Subjects, conversions and in-order of the images as they stand. Without a drop the journals
    /// are one.
    fn whole_images(&self) {
        let (images, flat) = (&self.images, &self.journals.flat);
        whole_flat::<ListLayout>(&images.lists, &self.expected.rows, flat);
        whole_flat::<RowLayout>(&images.rows, &self.expected.lists, flat);
        assert!(!self.without_drop || self.journals.agree(), "journals differ without a drop");
        assert_eq!(lent::chains::inspect(&images.grants, &images.loans), 0);
        images.compare(&self.expected);
    }

    fn step(&mut self, step: u32) {
        self.command(step);
        self.sample();
        if step % 16 == 15 {
            self.whole_images();
        }
        if step % 128 == 127 {
            let loan = self.generator.standing(&self.journals.chains);
            self.key(loan.item % 64, loan.right % 8);
        }
    }
}

/// The journal and the loans before a sweep.
struct Swept {
    journal: Journal,
    loans: Vec<u32>,
}

impl Swept {
    fn new(journal: &Journal, images: &Images) -> Self {
        Self { journal: journal.clone(), loans: images.loans.clone() }
    }
}

/// The image of the same loans in that shift.
fn in_shift(loans: &[u32], shift: u32) -> Vec<u32> {
    let mut image = loans.to_vec();
    image[0] = Head { shift, ..head_of(loans) }.word();
    image
}

fn whole_flat<U: Flat>(image: &[U::Cell], other: &[<U::Other as Layout>::Cell], journal: &Journal) {
    assert_eq!(U::inspect(image), 0, "{}", U::NAME);
    assert_eq!(U::subjects(image), (0, journal.subjects()), "subjects of {}", U::NAME);
    let mut converted = other.to_vec();
    converted.reverse();
    assert_eq!(U::convert(image, &mut converted), 0, "{}", U::NAME);
    assert!(converted == other, "{} converted", U::NAME);
}

/// One list of commands of the bias; at its end every check there is, if asked for.
fn list(seed: u64, bias: Bias, everything: bool) -> Counts {
    let mut run = Run::new(seed, bias);
    let mut trace = Trace { seed, bias: bias.name, step: 0 };
    for step in 0..bias.length {
        trace.step = step;
        run.step(step);
    }
    if everything {
        run.everything();
    }
    run.counts
}

/// Lists of each bias until each has at least `commands` commands.
fn lists_of_every_bias(commands: u64, everything_each: u64) -> Counts {
    let mut total = Counts::default();
    println!("differential, seed {}", seed());
    for (number, bias) in (0..).zip(BIASES) {
        let mut counts = Counts::default();
        let mut round = 0;
        while counts.commands < commands {
            let list_seed = seed() + 1_000_000 * number + round;
            counts.add(&list(list_seed, bias, round % everything_each == 0));
            round += 1;
        }
        println!("{}: {round} lists, {counts:?}", bias.name);
        total.add(&counts);
    }
    println!("total: {total:?}");
    total.situations.print();
    total
}

#[test]
fn short() {
    lists_of_every_bias(2_000, 4).assert_broad();
}

/// Ten million commands.
#[test]
#[ignore = "takes minutes"]
fn long() {
    let counts = lists_of_every_bias(540_000, 50);
    counts.assert_broad();
    assert!(counts.commands >= 10_000_000);
}
