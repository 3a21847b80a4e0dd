//! Ways to damage an image.

use crate::generator::Random;
use crate::model::{head_of, word_of, Cell, Grant, Head, Journal, Layout, Loan};

/// A damage: what it is called and what it does to an image of the journal.
pub type Damage<C> = (&'static str, fn(&mut Random, &Journal, &mut Vec<C>));

/// Damages of an image of live items and grants.
pub fn grant_damages<L: Layout>() -> [Damage<L::Cell>; 8] {
    [
        ("one bit", |random, _, image| flip_any(random, image)),
        ("several bits", |random, _, image| {
            for _ in 0..2 + random.below(4) {
                flip_any(random, image);
            }
        }),
        ("live set", |random, _, image| flip_roll::<L>(image, random.below(64))),
        ("root item dead", |_, _, image| flip_roll::<L>(image, 0)),
        ("named item dead", |random, journal, image| named_dies::<L>(random, journal, image)),
        ("dead item named", |random, journal, image| {
            let (dead, live) = (dead(random, journal), live(random, journal));
            let (person, item) = if random.percent(50) { (dead, live) } else { (live, dead) };
            set_grant::<L>(random, image, person, item);
        }),
        ("live grant added", |random, journal, image| {
            let (person, item) = (live(random, journal), live(random, journal));
            set_grant::<L>(random, image, person, item);
        }),
        ("length", |random, _, image| resize(random, image, L::CELLS)),
    ]
}

/// Damages of an image of loans.
pub const LOAN_DAMAGES: [Damage<u32>; 16] = [
    ("one bit", |random, _, image| flip_any(random, image)),
    ("one bit in use", |random, journal, image| {
        let used = journal.loans.len() as u32;
        let word = random.below(used + 1) as usize;
        image[word].flip(random.below(32));
    }),
    ("count", |random, _, image| {
        let count = random.pick(&[0, 1, 2, 1023, 1024, 1025, 1026, 65_535]);
        image[0] = Head { count, ..head_of(image) }.word();
    }),
    ("shift", |random, _, image| {
        let shift = random.pick(&SHIFTS);
        image[0] = Head { shift, ..head_of(image) }.word();
    }),
    ("shift and count", |random, _, image| {
        let (shift, count) = (random.pick(&[256, 65_535]), random.pick(&[1025, 65_535]));
        image[0] = Head { shift, count }.word();
    }),
    ("count by one", |random, _, image| {
        let up = random.percent(50);
        image[0] = if up { image[0] + 1 } else { image[0].wrapping_sub(1) };
    }),
    ("neighbours swapped", |random, _, image| {
        let at = neighbour(random, image);
        image.swap(at, at + 1);
    }),
    ("equal neighbours", |random, _, image| {
        let at = neighbour(random, image);
        image[at + 1] = image[at];
    }),
    ("last shift", |random, _, image| {
        let at = neighbour(random, image);
        image[at].flip(24 + random.below(8));
    }),
    ("last shift of the greatest loan", |random, _, image| {
        let at = head_of(image).count;
        if at > 0 {
            image[at] |= 1 << (24 + random.below(8));
        }
    }),
    ("right 0", |random, journal, image| {
        let loan = Loan { right: 0, ..live_loan(random, journal) };
        insert(image, word_of(&loan));
    }),
    ("dead item named", |random, journal, image| {
        let (loan, dead) = (live_loan(random, journal), dead(random, journal));
        let lender = Loan { lender: dead, ..loan };
        let item = Loan { item: dead, ..loan };
        let borrower = Loan { borrower: dead, ..loan };
        insert(image, word_of(&random.pick(&[lender, item, borrower])));
    }),
    ("live loan added", |random, journal, image| {
        insert(image, word_of(&live_loan(random, journal)));
    }),
    ("rest not 0", |random, journal, image| {
        let free = 1024 - journal.loans.len() as u32;
        if free > 0 {
            let at = 1024 - random.below(free) as usize;
            image[at] = random.pick(&[1, 1 << 9, 1 << 31, u32::MAX]);
        }
    }),
    ("gap", |random, _, image| {
        let at = neighbour(random, image);
        image[at] = 0;
    }),
    ("length", |random, _, image| resize(random, image, 1025)),
];

/// Shifts that an image may say, and some that none may.
const SHIFTS: [u32; 8] = [0, 1, 254, 255, 256, 257, 511, 65_535];

pub fn flip_any<C: Cell>(random: &mut Random, image: &mut [C]) {
    let cell = random.below(image.len() as u32) as usize;
    image[cell].flip(random.below(C::WIDTH));
}

fn flip_roll<L: Layout>(image: &mut [L::Cell], item: u32) {
    let place = L::roll(item);
    image[place.cell].flip(place.bit);
}

/// An item that a grant names leaves the live set.
fn named_dies<L: Layout>(random: &mut Random, journal: &Journal, image: &mut [L::Cell]) {
    let from = Grant { item: random.below(64), right: random.below(8), person: 0, depth: 0 };
    let standing = journal.grants.range(from..).next().or(journal.grants.first());
    if let Some(grant) = standing {
        let item = if random.percent(50) { grant.person } else { grant.item };
        flip_roll::<L>(image, item);
    }
}

fn set_grant<L: Layout>(random: &mut Random, image: &mut [L::Cell], person: u32, item: u32) {
    let (right, depth) = (random.below(8), random.below(L::DEPTHS));
    L::place(&Grant { item, right, person, depth }).set(image);
}

/// A wrong length: 0, 1, one off, or any; what is added is 0.
pub fn resize<C: Cell>(random: &mut Random, image: &mut Vec<C>, right: usize) {
    let length = wrong_length(random, right);
    image.resize(length, C::default());
}

pub fn wrong_length(random: &mut Random, right: usize) -> usize {
    let any = random.below(2 * right as u32) as usize;
    let lengths = [0, 1, right - 1, right + 1, right + 8, 2 * right, any];
    let length = random.pick(&lengths);
    if length == right {
        return 0;
    }
    length
}

/// A dead item, or 63 where all live.
fn dead(random: &mut Random, journal: &Journal) -> u32 {
    let from = random.below(64);
    (from..64).chain(0..from).find(|&item| !journal.lives(item)).unwrap_or(63)
}

fn live(random: &mut Random, journal: &Journal) -> u32 {
    let from = random.below(64);
    journal.live.range(from..).next().copied().unwrap_or(0)
}

/// A loan between live items, standing or not, with any last shift or none.
fn live_loan(random: &mut Random, journal: &Journal) -> Loan {
    Loan {
        lender: live(random, journal),
        item: live(random, journal),
        right: 1 + random.below(7),
        borrower: live(random, journal),
        depth: random.below(8),
        last: if random.percent(50) { 0 } else { random.below(256) },
    }
}

/// A word in use that has one after it, where there are two; else word 1.
fn neighbour(random: &mut Random, image: &[u32]) -> usize {
    let count = head_of(image).count;
    if count < 2 {
        return 1;
    }
    1 + random.below(count as u32 - 1) as usize
}

/// Puts a word in its place among the loans in use, where there is room and it is not there.
fn insert(image: &mut Vec<u32>, word: u32) {
    let count = head_of(image).count;
    let used = &image[1..=count];
    if count == 1024 || used.contains(&word) {
        return;
    }
    let at = used.iter().position(|&other| other > word).unwrap_or(count);
    image.insert(1 + at, word);
    image.pop();
    image[0] += 1;
}
