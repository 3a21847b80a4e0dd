//! Lists with many loans of one item and right: layers of persons, each of whom lends to the next
//! layer, so that chains grow to eight persons and many are equally good.

use std::collections::BTreeSet;

use crate::generator::{Bias, Random, BIASES, KEY};
use crate::model::commands::{allow, lend, shift};
use crate::model::{Command, Loan};

/// The commands after the loans are made.
pub const BIAS: Bias = Bias {
    name: "many loans of one key",
    items: 64,
    shares: [0, 0, 2, 0, 2, 2, 46, 40, 4, 2],
    dated: 50,
    on_key: 95,
    wild: 0,
    length: 300,
    ..BIASES[0]
};

/// Layers of the persons, as many as a chain has persons.
const LAYERS: u32 = 8;

/// Before the last shifts of a list's loans: at the limits of a byte, and at those of one with a sign.
const BEFORE: [u32; 3] = [0, 124, 249];

/// How many last shifts come up.
const LASTS: u32 = 6;

pub struct Dense {
    random: Random,
    /// Loans of the item and right.
    count: usize,
    /// The last shifts are those after this.
    before: u32,
    /// Persons of a layer.
    width: u32,
    /// Persons by layer, then those of none.
    persons: [u32; 64],
    made: BTreeSet<Loan>,
}

impl Dense {
    pub fn new(seed: u64, count: u32) -> Self {
        let mut random = Random::new(seed);
        let mut persons: [u32; 64] = std::array::from_fn(|person| person as u32);
        for end in (1..64).rev() {
            persons.swap(end, random.below(end as u32 + 1) as usize);
        }
        let width = match count {
            0..=64 => 2,
            65..=256 => 4,
            _ => 8,
        };
        let before = BEFORE[(seed % 3) as usize];
        Self { random, count: count as usize, before, width, persons, made: BTreeSet::new() }
    }

    /// Grants, and loans until there are enough; where the table has room, loans of other rights.
    pub fn opening(&mut self) -> Vec<Command> {
        let mut commands = self.grants();
        while self.made.len() < self.count {
            let loan = self.loan();
            if self.made.insert(loan) {
                commands.push(lend_of(loan));
            }
            if self.count < 1024 && self.random.percent(10) {
                let right = 1 + self.random.below(7);
                let item = self.random.below(64);
                commands.push(lend_of(Loan { item, right, ..loan }));
            }
        }
        commands
    }

    /// Shift 0, then each in which loans end, to the one after the last where there is one.
    pub fn shifts(&self) -> impl Iterator<Item = Command> {
        let ends = self.before + 1..=(self.before + LASTS + 1).min(255);
        std::iter::once(0).chain(ends).map(|now| shift(0, now))
    }

    /// Depth 7 to the first layer; to some of the others less than what the chains bring.
    fn grants(&mut self) -> Vec<Command> {
        let grant = |to, depth| allow(0, to, KEY.0, KEY.1, depth);
        let mut commands = Vec::new();
        for place in 0..self.width {
            commands.push(grant(self.person(0, place), 7));
        }
        for layer in 1..LAYERS - 1 {
            let to = self.any_of(layer);
            commands.push(grant(to, self.random.below(LAYERS - 1 - layer)));
        }
        commands
    }

    fn person(&self, layer: u32, place: u32) -> u32 {
        self.persons[(layer * self.width + place) as usize]
    }

    fn any_of(&mut self, layer: u32) -> u32 {
        let place = self.random.below(self.width);
        self.person(layer, place)
    }

    /// Mostly one to the next layer; else one that passes layers over and brings less than they do,
    /// or as much; one back, one of anybody, or one that stands with a lesser depth or another last
    /// shift.
    fn loan(&mut self) -> Loan {
        let (low, high) = self.two_layers();
        match self.random.below(100) {
            0..=54 => self.between(high - 1, high, LAYERS - 1 - high, 7),
            55..=64 => {
                self.between(low, high.min(LAYERS - 2), 0, (LAYERS - 2).saturating_sub(high))
            }
            65..=67 => self.between(low, high, LAYERS - 1 - high, LAYERS - 1 - high),
            68..=79 => self.between(high, low, 0, 7),
            80 => {
                let (lender, borrower) = (self.random.below(64), self.random.below(64));
                self.of_depth(lender, borrower, 0, 7)
            }
            81..=90 => self.shallower(),
            _ => self.again(),
        }
    }

    /// Two layers, the first below the second.
    fn two_layers(&mut self) -> (u32, u32) {
        let high = 1 + self.random.below(LAYERS - 1);
        (self.random.below(high), high)
    }

    /// A loan between persons of two layers, of a depth within the limits.
    fn between(&mut self, from: u32, to: u32, least: u32, most: u32) -> Loan {
        let (lender, borrower) = (self.any_of(from), self.any_of(to));
        self.of_depth(lender, borrower, least, most)
    }

    /// Two in five of these loans have a last shift.
    fn of_depth(&mut self, lender: u32, borrower: u32, least: u32, most: u32) -> Loan {
        let depth = least + self.random.below(most - least + 1);
        let last = if self.random.percent(40) { self.last() } else { 0 };
        Loan { lender, item: KEY.0, right: KEY.1, borrower, depth, last }
    }

    fn last(&mut self) -> u32 {
        self.before + 1 + self.random.below(LASTS)
    }

    /// A loan made before, of that depth or less.
    fn shallower(&mut self) -> Loan {
        let loan = self.standing();
        Loan { depth: self.random.below(loan.depth + 1), ..loan }
    }

    /// A loan made before, with a last shift of its own.
    fn again(&mut self) -> Loan {
        let loan = self.standing();
        Loan { last: self.last(), ..loan }
    }

    /// A loan made before, or one of the first layers.
    fn standing(&mut self) -> Loan {
        let made = self.made.len() as u32;
        if made == 0 {
            return self.between(0, 1, 6, 7);
        }
        let at = self.random.below(made) as usize;
        *self.made.iter().nth(at).expect("a loan that was made")
    }
}

fn lend_of(loan: Loan) -> Command {
    lend(loan.lender, loan.borrower, loan.item, loan.right, loan.depth, loan.last)
}
