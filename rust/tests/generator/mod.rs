//! Seeded commands, biased to the states that are worth reaching.
#![allow(dead_code)]

use crate::model::commands::{lend, recall};
use crate::model::{Command, Grant, Journal, Journals, Loan};

/// splitmix64.
pub struct Random(u64);

impl Random {
    pub fn new(seed: u64) -> Self {
        Self(seed)
    }

    pub fn next(&mut self) -> u64 {
        self.0 = self.0.wrapping_add(0x9e37_79b9_7f4a_7c15);
        let mut z = self.0;
        z = (z ^ z >> 30).wrapping_mul(0xbf58_476d_1ce4_e5b9);
        z = (z ^ z >> 27).wrapping_mul(0x94d0_49bb_1331_11eb);
        z ^ z >> 31
    }

    /// A number below n; n is not 0.
    pub fn below(&mut self, n: u32) -> u32 {
        (self.next() % u64::from(n)) as u32
    }

    pub fn percent(&mut self, chance: u32) -> bool {
        self.below(100) < chance
    }

    pub fn pick<T: Copy>(&mut self, from: &[T]) -> T {
        from[self.below(from.len() as u32) as usize]
    }
}

/// The seed of a run: RIGHTS_SEED, or the one the pages name.
pub fn seed() -> u64 {
    match std::env::var("RIGHTS_SEED") {
        Ok(text) => text.parse().expect("RIGHTS_SEED is a number"),
        Err(_) => 20_251_115,
    }
}

/// Names the list and the command where a run failed.
pub struct Trace {
    pub seed: u64,
    pub bias: &'static str,
    pub step: u32,
}

impl Drop for Trace {
    fn drop(&mut self) {
        if std::thread::panicking() {
            eprintln!("bias '{}', seed {}, command {}", self.bias, self.seed, self.step);
        }
    }
}

/// The kinds of commands; those that lists and rows have come first.
pub const KINDS: usize = 10;
pub const FLAT_KINDS: usize = 5;

/// The last kind.
const SWEEP: usize = KINDS - 1;

/// What a list of commands favours.
#[derive(Clone, Copy, Debug)]
pub struct Bias {
    pub name: &'static str,
    /// Items in play, from 0.
    pub items: u32,
    /// Rights in play, from 0.
    pub rights: u32,
    /// Shares of the kinds: create, delete, allow, allowset, withdraw, drop, lend, recall, shift, sweep.
    pub shares: [u32; KINDS],
    /// Percent of loans with a last shift.
    pub dated: u32,
    /// Percent of commands on one item and right.
    pub on_key: u32,
    /// Percent of loans by one who has a grant.
    pub held: u32,
    /// Percent of loans to the next item.
    pub to_next: u32,
    /// Percent of grants and loans in layers, in which all chains that go onward end alike.
    pub layers: u32,
    /// Percent of those loans that are not to the next layer.
    pub astray: u32,
    /// Percent of withdraws and drops of one who has lent, and of allows that give back what was
    /// withdrawn or dropped last.
    pub lenders: u32,
    /// Percent of shifts that go on by 1 to 3.
    pub onward: u32,
    /// Percent of lends that are the last one again, where its loan does not stand.
    pub again: u32,
    /// Percent of commands that are sweeps where the table of loans is full.
    pub room: u32,
    /// Percent of numbers that are anything.
    pub wild: u32,
    /// Commands before the units start again.
    pub length: u32,
}

/// The item and right that a bias with `on_key` favours.
pub const KEY: (u32, u32) = (1, 1);

const EVEN: Bias = Bias {
    name: "few items",
    items: 6,
    rights: 3,
    shares: [10, 5, 30, 3, 10, 4, 30, 15, 4, 2],
    dated: 30,
    on_key: 0,
    held: 30,
    to_next: 0,
    layers: 0,
    astray: 0,
    lenders: 0,
    onward: 0,
    again: 0,
    room: 0,
    wild: 1,
    length: 2_000,
};

pub const BIASES: [Bias; 19] = [
    EVEN,
    Bias {
        name: "one key",
        items: 10,
        shares: [5, 1, 20, 1, 8, 4, 50, 16, 4, 1],
        on_key: 90,
        ..EVEN
    },
    Bias {
        name: "long chains",
        items: 16,
        shares: [12, 0, 2, 0, 4, 1, 72, 7, 2, 0],
        dated: 10,
        on_key: 97,
        held: 0,
        to_next: 97,
        ..EVEN
    },
    Bias {
        name: "delete and create",
        items: 8,
        shares: [28, 15, 25, 5, 2, 3, 28, 2, 10, 2],
        on_key: 60,
        length: 400,
        ..EVEN
    },
    Bias {
        name: "full loans",
        items: 64,
        rights: 8,
        shares: [2, 0, 6, 4, 1, 0, 88, 3, 2, 0],
        wild: 0,
        length: 3_000,
        ..EVEN
    },
    Bias {
        name: "full loans of one key",
        items: 64,
        shares: [2, 0, 6, 1, 2, 1, 86, 4, 2, 0],
        on_key: 98,
        wild: 0,
        length: 3_000,
        ..EVEN
    },
    Bias {
        name: "beyond the limits",
        items: 64,
        rights: 8,
        shares: [10, 5, 30, 3, 10, 16, 30, 15, 4, 4],
        wild: 25,
        length: 1_000,
        ..EVEN
    },
    Bias {
        name: "many grants",
        items: 64,
        rights: 8,
        shares: [10, 2, 70, 4, 8, 6, 5, 5, 2, 0],
        ..EVEN
    },
    Bias {
        name: "shift after shift",
        items: 8,
        shares: [6, 2, 6, 1, 8, 2, 34, 34, 16, 4],
        dated: 70,
        on_key: 80,
        held: 80,
        ..EVEN
    },
    Bias {
        name: "sets of items",
        items: 64,
        rights: 4,
        shares: [8, 3, 8, 45, 14, 0, 10, 4, 2, 0],
        on_key: 40,
        length: 1_000,
        ..EVEN
    },
    Bias {
        name: "depth after depth",
        items: 5,
        rights: 2,
        shares: [10, 8, 40, 2, 6, 34, 8, 3, 2, 0],
        on_key: 40,
        held: 80,
        length: 300,
        ..EVEN
    },
    Bias {
        name: "edit grants",
        items: 6,
        rights: 1,
        shares: [12, 14, 40, 2, 4, 26, 1, 1, 2, 0],
        length: 900,
        ..EVEN
    },
    Bias {
        name: "lenders withdrawn",
        items: 4,
        shares: [3, 1, 22, 1, 12, 20, 30, 10, 16, 0],
        dated: 50,
        on_key: 65,
        held: 95,
        lenders: 85,
        length: 60,
        ..EVEN
    },
    Bias {
        name: "a lender's last shifts",
        items: 3,
        rights: 2,
        shares: [3, 1, 14, 0, 14, 8, 30, 6, 28, 0],
        dated: 85,
        on_key: 85,
        held: 95,
        lenders: 90,
        length: 80,
        ..EVEN
    },
    Bias {
        name: "many loans of a lender",
        items: 24,
        rights: 2,
        shares: [2, 0, 3, 0, 1, 6, 90, 1, 3, 0],
        dated: 50,
        on_key: 95,
        held: 95,
        lenders: 90,
        wild: 0,
        length: 1_000,
        ..EVEN
    },
    Bias {
        name: "long routes",
        items: 16,
        rights: 2,
        shares: [0, 0, 9, 0, 1, 1, 80, 7, 2, 0],
        dated: 8,
        on_key: 97,
        layers: 97,
        astray: 7,
        length: 100,
        ..EVEN
    },
    Bias {
        name: "many routes and loops",
        items: 8,
        rights: 2,
        shares: [0, 0, 7, 0, 3, 3, 62, 20, 5, 0],
        dated: 25,
        on_key: 97,
        layers: 90,
        astray: 55,
        length: 125,
        ..EVEN
    },
    Bias {
        name: "sweep after sweep",
        items: 6,
        shares: [3, 1, 7, 0, 1, 1, 40, 3, 28, 18],
        dated: 97,
        on_key: 60,
        held: 60,
        onward: 40,
        again: 40,
        length: 50,
        ..EVEN
    },
    Bias {
        name: "full of past shifts",
        items: 64,
        rights: 8,
        shares: [1, 0, 3, 0, 0, 0, 190, 1, 8, 1],
        dated: 25,
        on_key: 75,
        onward: 90,
        again: 60,
        room: 20,
        wild: 0,
        length: 3_500,
        ..EVEN
    },
];

/// Numbers at and past the limits, and those that look small where a field is cut.
const WILD: [u32; 14] = [0, 7, 8, 62, 63, 64, 65, 127, 128, 255, 256, 1 << 24, 1 << 31, u32::MAX];

/// Persons alike in their number modulo this are a layer.
const LAYERS: u32 = 8;

/// What a chain from the first layer onward leaves at the person, whatever layers it passes over.
fn layer_depth(person: u32) -> u32 {
    LAYERS - 1 - person % LAYERS
}

/// The bit of an item in a set; none beyond the limit.
fn bit(item: u32) -> u64 {
    1u64.checked_shl(item).unwrap_or(0)
}

pub struct Generator {
    pub random: Random,
    bias: Bias,
    /// The last allowset.
    allow_set: Option<Command>,
    /// The last grant that was to be dropped.
    dropped: Option<Grant>,
    /// The last grant that a lender was to lose.
    withdrawn: Option<Grant>,
    /// The last lend.
    lent: Option<Command>,
}

impl Generator {
    pub fn new(seed: u64, bias: Bias) -> Self {
        let (allow_set, dropped, withdrawn, lent) = (None, None, None, None);
        Self { random: Random::new(seed), bias, allow_set, dropped, withdrawn, lent }
    }

    /// The next command of a list; `step` counts from 0. A list begins with its items. What lists and
    /// rows have is aimed at their state too, where drops have parted it from the chain unit's.
    pub fn command(&mut self, journals: &Journals, step: u32) -> Command {
        let item = step + 1;
        if item < self.bias.items {
            return Command::Create { by: 0, on: item };
        }
        let shares = self.bias.shares;
        let mut at = self.random.below(shares.iter().sum());
        let kind = shares.iter().position(|&share| {
            let here = at < share;
            at = at.saturating_sub(share);
            here
        });
        let kind = if self.makes_room(&journals.chains) { SWEEP } else { kind.expect("a share") };
        let flat = kind < FLAT_KINDS && self.random.percent(30);
        self.of_kind(kind, if flat { &journals.flat } else { &journals.chains })
    }

    /// A command of the kind, in the order of `shares`.
    pub fn of_kind(&mut self, kind: usize, journal: &Journal) -> Command {
        let (on, right) = self.key();
        let (to, depth) = (self.living(journal), self.depth());
        let in_layers = self.bias.layers > 0 && self.random.percent(self.bias.layers);
        match kind {
            0 => Command::Create { by: self.living(journal), on: self.item() },
            1 => {
                let on = self.item();
                Command::Delete { by: self.editor(journal, on), on }
            }
            2 if in_layers => self.allow_in_layers(journal, on, right),
            2 => self.allow(journal, Grant { item: on, right, person: to, depth }),
            3 => self.allow_set(journal, on, right),
            4 => self.withdraw(journal),
            5 => self.drop(journal),
            6 if in_layers => self.lend_in_layers(journal, on, right),
            6 => self.lend_or_again(journal, on, right),
            7 => self.recall(journal),
            8 => Command::Shift { by: self.editor(journal, 0), now: self.now(journal) },
            _ => Command::Sweep { by: self.sweeper(journal) },
        }
    }

    /// Whether the table is full and a sweep is to come, where the bias has such.
    fn makes_room(&mut self, journal: &Journal) -> bool {
        self.bias.room > 0 && journal.loans.len() == 1024 && self.random.percent(self.bias.room)
    }

    /// One that lives, who may edit something or nothing; at times one that is dead, or beyond the limit.
    fn sweeper(&mut self, journal: &Journal) -> u32 {
        match self.random.below(100) {
            0..=11 => self.dead(journal),
            12..=19 => self.random.pick(&[64, 65, 128, u32::MAX]),
            _ => self.living(journal),
        }
    }

    /// The grant, or at times that of one who lost it or who has lent, then often at depth 0.
    fn allow(&mut self, journal: &Journal, grant: Grant) -> Command {
        let aimed = self.bias.lenders > 0 && self.random.percent(self.bias.lenders / 2);
        let to_lender = if aimed { self.lost_or_lent(journal) } else { None };
        let Grant { item: on, right, person: to, .. } = to_lender.unwrap_or(grant);
        let depth = if aimed && self.random.percent(35) { 0 } else { grant.depth };
        Command::Allow { by: self.editor(journal, on), to, on, right, depth }
    }

    fn lost_or_lent(&mut self, journal: &Journal) -> Option<Grant> {
        if self.random.percent(60) {
            return self.withdrawn;
        }
        let Loan { lender: person, item, right, depth, .. } = self.standing(journal);
        Some(Grant { item, right, person, depth })
    }

    /// The grant of one who has lent, often at the greatest depth that stands: where the bias has such.
    fn of_lender(&mut self, journal: &Journal) -> Option<Grant> {
        if self.bias.lenders == 0 || !self.random.percent(self.bias.lenders) {
            return None;
        }
        let any = self.standing(journal);
        let held = |loan: &&Loan| journal.granted(loan.lender, loan.item, loan.right);
        let holder = journal.loans.range(any..).chain(&journal.loans).find(held).copied();
        let aimed = holder.filter(|_| self.random.percent(75)).unwrap_or(any);
        let Loan { lender: person, item, right, depth, .. } = aimed;
        let least = self.random.percent(30);
        let mut depths = journal.depths(person, item, right);
        let depth = if least { depths.next() } else { depths.last() }.unwrap_or(depth);
        self.withdrawn = Some(Grant { item, right, person, depth });
        self.withdrawn
    }

    /// An allowset, at times the last one again, or one with dead names or a number beyond the limit
    /// beside its set.
    fn allow_set(&mut self, journal: &Journal, on: u32, right: u32) -> Command {
        let last = self.allow_set.filter(|_| self.random.percent(12));
        let command = last.unwrap_or_else(|| {
            let on = if self.random.percent(12) { self.dead(journal) } else { on };
            let by_dead = self.random.percent(15);
            let by = if by_dead { self.dead(journal) } else { self.editor(journal, on) };
            let (set, depth) = (self.set(journal, by), self.depth());
            let (right, depth) = match self.random.below(100) {
                0..=4 => (8, depth),
                5..=9 => (right, 8),
                _ => (right, depth),
            };
            Command::AllowSet { by, set, on, right, depth }
        });
        self.allow_set = Some(command);
        command
    }

    /// Of the items that live all, some, one, with `by` or without, or with one that is dead; at
    /// times none, or anything.
    fn set(&mut self, journal: &Journal, by: u32) -> u64 {
        let live = journal.live.iter().fold(0, |set, &item| set | bit(item));
        let some = self.random.next();
        match self.random.below(100) {
            0..=13 => 0,
            14..=26 => live,
            27..=35 => some & live | bit(self.dead(journal)),
            36..=43 => some & live | bit(63),
            44..=50 => bit(self.living(journal)),
            51..=64 => (some | bit(0) | bit(63) | bit(by)) & live,
            65..=71 => some & live & !bit(by),
            72..=94 => some & live,
            95..=97 => some,
            _ => self.random.pick(&[bit(0), bit(63), u32::MAX.into(), u64::MAX]),
        }
    }

    /// An item that is dead; 64 where all live.
    fn dead(&mut self, journal: &Journal) -> u32 {
        let from = self.random.below(64);
        (from..64).chain(0..from).find(|&item| !journal.lives(item)).unwrap_or(64)
    }

    /// A grant that stands, or one of right 0 now and then, or any.
    fn withdraw(&mut self, journal: &Journal) -> Command {
        let of_lender = self.of_lender(journal);
        let grant = of_lender.unwrap_or_else(|| self.grant_to_withdraw(journal));
        let by = self.editor(journal, grant.item);
        Command::Withdraw { by, to: grant.person, on: grant.item, right: grant.right }
    }

    fn grant_to_withdraw(&mut self, journal: &Journal) -> Grant {
        let (on, right) = self.key();
        let any = Grant { item: on, right, person: self.item(), depth: 0 };
        let standing = journal.grants.range(any..).next().copied();
        let aimed = standing.filter(|g| self.random.percent(if g.right == 0 { 5 } else { 70 }));
        aimed.unwrap_or(any)
    }

    /// A grant that stands, a last edit grant seldom, or another depth, or any; at times with what is
    /// refused.
    fn drop(&mut self, journal: &Journal) -> Command {
        let of_lender = self.of_lender(journal);
        let grant = of_lender.unwrap_or_else(|| self.grant_to_drop(journal));
        let depth = if self.random.percent(80) { grant.depth } else { self.number(8) };
        self.dropped = Some(Grant { depth, ..grant });
        let own = self.random.percent(15) && journal.granted(grant.person, grant.item, 0);
        let by = if own { grant.person } else { self.editor(journal, grant.item) };
        if self.random.percent(20) {
            return self.faulty_drop(journal, by, Grant { depth, ..grant });
        }
        Command::Drop { by, to: grant.person, on: grant.item, right: grant.right, depth }
    }

    fn grant_to_drop(&mut self, journal: &Journal) -> Grant {
        let (on, right) = self.key();
        let any = Grant { item: on, right, person: self.item(), depth: self.depth() };
        let standing = journal.grants.range(any..).next().copied();
        let last_edit =
            |g: &Grant| g.right == 0 && journal.depths(g.person, g.item, 0).eq([g.depth]);
        let aimed = standing.filter(|g| self.random.percent(if last_edit(g) { 15 } else { 90 }));
        aimed.unwrap_or(any)
    }

    /// The drop with a dead name or two, one who may not edit, or a depth beyond the limit.
    fn faulty_drop(&mut self, journal: &Journal, by: u32, grant: Grant) -> Command {
        let Grant { item, right, person, depth } = grant;
        let mut or_dead = |item| if self.random.percent(35) { self.dead(journal) } else { item };
        let (by, to, on) = (or_dead(by), or_dead(person), or_dead(item));
        let by = if self.random.percent(30) { self.living(journal) } else { by };
        let depth = if self.random.percent(40) { 8 } else { depth };
        Command::Drop { by, to, on, right, depth }
    }

    /// A lend; where the bias has such, at times the last one again, refused or ended since.
    fn lend_or_again(&mut self, journal: &Journal, on: u32, right: u32) -> Command {
        let stands = |lend: &Command| lend.loan().is_some_and(|loan| journal.loans.contains(&loan));
        let lent = self.lent.filter(|lend| self.bias.again > 0 && !stands(lend));
        let again = lent.filter(|_| self.random.percent(self.bias.again));
        let command = again.unwrap_or_else(|| self.lend(journal, on, right));
        self.lent = Some(command);
        command
    }

    /// A loan that stands, at times for another last shift, one to the next item, or any.
    fn lend(&mut self, journal: &Journal, on: u32, right: u32) -> Command {
        if self.random.percent(8) {
            let Loan { lender, item, right, borrower, depth, last } = self.standing(journal);
            let last = if self.random.percent(60) { last } else { self.last(journal) };
            return lend(lender, borrower, item, right, depth, last);
        }
        let held = self.random.percent(self.bias.held);
        let by = if held { self.holder(journal, on, right) } else { self.living(journal) };
        let next = self.random.percent(self.bias.to_next);
        let to = if next { (by % 64 + 1) % self.bias.items } else { self.living(journal) };
        lend(by, to, on, right, self.depth(), self.last(journal))
    }

    /// A grant to a person, mostly one of the first layer.
    fn allow_in_layers(&mut self, journal: &Journal, on: u32, right: u32) -> Command {
        let person = self.random.below(self.bias.items);
        let to = if self.random.percent(90) { person / LAYERS * LAYERS } else { person };
        Command::Allow { by: self.editor(journal, on), to, on, right, depth: layer_depth(to) }
    }

    /// A loan to the next layer, at times to a later one or back.
    fn lend_in_layers(&mut self, journal: &Journal, on: u32, right: u32) -> Command {
        let by = self.random.below(self.bias.items);
        let astray = self.random.percent(self.bias.astray);
        let onward = if astray { self.random.pick(&[2, 2, 3, 5, 6, 7, 8]) } else { 1 };
        let column = LAYERS * self.random.below(self.bias.items / LAYERS);
        let to = (by + onward) % LAYERS + column;
        lend(by, to, on, right, layer_depth(to), self.last(journal))
    }

    /// The last shift of a loan, if it has one: near the present shift, at times anything.
    fn last(&mut self, journal: &Journal) -> u32 {
        let present = journal.shift;
        if !self.random.percent(self.bias.dated) {
            return 0;
        }
        match self.random.below(100) {
            0..=49 => present,
            50..=64 => present + 1 + self.random.below(4),
            65..=84 => present.saturating_sub(1),
            85..=90 => self.random.below(present + 1),
            91..=95 => self.random.pick(&[254, 255, 256, u32::MAX]),
            _ => self.number(256),
        }
    }

    /// A shift: near the present one, at times anything.
    fn now(&mut self, journal: &Journal) -> u32 {
        let present = journal.shift;
        if self.bias.onward > 0 && self.random.percent(self.bias.onward) {
            return present + 1 + self.random.below(3);
        }
        match self.random.below(100) {
            0..=14 => present,
            15..=49 => present + 1,
            50..=69 => present.saturating_sub(1),
            70..=84 => self.random.below(present + 1),
            85..=89 => 0,
            90..=94 => present + self.random.below(30),
            95..=97 => self.random.pick(&[256, 257, u32::MAX]),
            98 => 255,
            _ => self.number(256),
        }
    }

    /// A great depth where loans go to the next item, so that chains grow long.
    fn depth(&mut self) -> u32 {
        if self.random.percent(self.bias.to_next) {
            return 7 - self.random.below(2);
        }
        self.number(8)
    }

    /// A loan that stands, often one with a last shift, at times with another depth or last shift.
    fn recall(&mut self, journal: &Journal) -> Command {
        let Loan { lender, item, right, borrower, depth, last } = self.standing_or_dated(journal);
        let depth = if self.random.percent(80) { depth } else { self.number(8) };
        let last = if self.random.percent(80) { last } else { self.last(journal) };
        recall(lender, borrower, item, right, depth, last)
    }

    /// The first loan that stands from a random place on, or else a random one.
    pub fn standing(&mut self, journal: &Journal) -> Loan {
        let (item, right) = self.key();
        let (lender, borrower) = (self.item(), self.item());
        let any = Loan { lender, item, right, borrower, depth: self.number(8), last: 0 };
        journal.loans.range(any..).next().copied().unwrap_or(any)
    }

    /// A loan that stands, or as often the first from there on with a last shift.
    fn standing_or_dated(&mut self, journal: &Journal) -> Loan {
        let any = self.standing(journal);
        let from_there = journal.loans.range(any..).chain(&journal.loans);
        let dated = from_there.copied().find(|loan| loan.last != 0);
        dated.filter(|_| self.random.percent(50)).unwrap_or(any)
    }

    /// One who may edit the item, mostly.
    fn editor(&mut self, journal: &Journal, item: u32) -> u32 {
        self.holder(journal, item, 0)
    }

    /// One who has a grant of the right on the item, mostly.
    fn holder(&mut self, journal: &Journal, item: u32, right: u32) -> u32 {
        let any = self.item();
        if self.random.percent(20) {
            return any;
        }
        let at = |person| Grant { item, right, person, depth: 0 };
        let later = journal.grants.range(at(any)..).next();
        let first = journal.grants.range(at(0)..).next();
        let found = later.into_iter().chain(first).find(|g| g.item == item && g.right == right);
        found.map_or(any, |g| g.person)
    }

    /// An item that lives, mostly.
    fn living(&mut self, journal: &Journal) -> u32 {
        let any = self.item();
        if self.random.percent(10) {
            return any;
        }
        journal.live.range(any..).next().copied().unwrap_or(any)
    }

    fn key(&mut self) -> (u32, u32) {
        if self.random.percent(self.bias.on_key) {
            return KEY;
        }
        (self.item(), self.number(self.bias.rights))
    }

    pub fn item(&mut self) -> u32 {
        self.number(self.bias.items)
    }

    /// A number below n, or at times anything.
    fn number(&mut self, n: u32) -> u32 {
        if !self.random.percent(self.bias.wild) {
            return self.random.below(n);
        }
        if self.random.percent(80) {
            return self.random.pick(&WILD);
        }
        self.random.next() as u32
    }

    /// Who, on and right of a check, biased to loans that stand and, in a list with drops, to what was
    /// dropped last.
    pub fn question(&mut self, journal: &Journal) -> (u32, u32, u32) {
        if let Some(grant) = self.dropped.filter(|_| self.random.percent(10)) {
            return (grant.person, grant.item, grant.right);
        }
        if self.random.percent(60) {
            let loan = self.standing_or_dated(journal);
            return (loan.borrower, loan.item, loan.right);
        }
        let (on, right) = self.key();
        (self.item(), on, right)
    }
}
