//! The journal: what lives, the grants, the loans, the present shift, and the table of answers.

use std::collections::BTreeSet;

#[derive(Clone, Copy, Debug, PartialEq, Eq, PartialOrd, Ord)]
pub struct Grant {
    pub item: u32,
    pub right: u32,
    pub person: u32,
    pub depth: u32,
}

#[derive(Clone, Copy, Debug, PartialEq, Eq, PartialOrd, Ord)]
pub struct Loan {
    pub lender: u32,
    pub item: u32,
    pub right: u32,
    pub borrower: u32,
    pub depth: u32,
    /// The last shift; 0 is open-ended.
    pub last: u32,
}

impl Loan {
    /// Open-ended or not past its last shift.
    pub fn carries_in(&self, shift: u32) -> bool {
        self.last == 0 || shift <= self.last
    }
}

#[derive(Clone, Copy, Debug, PartialEq, Eq)]
pub enum Command {
    Create { by: u32, on: u32 },
    Delete { by: u32, on: u32 },
    Allow { by: u32, to: u32, on: u32, right: u32, depth: u32 },
    AllowSet { by: u32, set: u64, on: u32, right: u32, depth: u32 },
    Withdraw { by: u32, to: u32, on: u32, right: u32 },
    Drop { by: u32, to: u32, on: u32, right: u32, depth: u32 },
    Lend { by: u32, to: u32, on: u32, right: u32, depth: u32, last: u32 },
    Recall { by: u32, to: u32, on: u32, right: u32, depth: u32, last: u32 },
    Shift { by: u32, now: u32 },
    Sweep { by: u32 },
}

/// The items, right, depth and shift that a command names; 0 for what it has none of.
struct Named {
    items: Vec<u32>,
    right: u32,
    depth: u32,
    shift: u32,
}

impl Command {
    fn named(self) -> Named {
        match self {
            Command::Create { by, on } | Command::Delete { by, on } => {
                Named { items: vec![by, on], right: 0, depth: 0, shift: 0 }
            }
            Command::Withdraw { by, to, on, right } => {
                Named { items: vec![by, to, on], right, depth: 0, shift: 0 }
            }
            Command::Allow { by, to, on, right, depth }
            | Command::Drop { by, to, on, right, depth } => {
                Named { items: vec![by, to, on], right, depth, shift: 0 }
            }
            // "bit i for item i": no member of a set is above 63.
            Command::AllowSet { by, on, right, depth, .. } => {
                Named { items: vec![by, on], right, depth, shift: 0 }
            }
            Command::Lend { by, to, on, right, depth, last }
            | Command::Recall { by, to, on, right, depth, last } => {
                Named { items: vec![by, to, on], right, depth, shift: last }
            }
            Command::Shift { by, now } => Named { items: vec![by], right: 0, depth: 0, shift: now },
            Command::Sweep { by } => Named { items: vec![by], right: 0, depth: 0, shift: 0 },
        }
    }

    /// An item above 63, right above 7, depth above 7 or shift above 255.
    fn out_of_range(self) -> bool {
        let named = self.named();
        let items = named.items.iter().any(|&item| item > 63);
        items || named.right > 7 || named.depth > 7 || named.shift > 255
    }

    pub fn by(self) -> u32 {
        self.named().items[0]
    }

    /// Lists and rows have "the first four commands" of document 01 and allowset.
    pub fn is_flat(self) -> bool {
        match self {
            Command::Create { .. }
            | Command::Delete { .. }
            | Command::Allow { .. }
            | Command::AllowSet { .. }
            | Command::Withdraw { .. } => true,
            Command::Drop { .. }
            | Command::Lend { .. }
            | Command::Recall { .. }
            | Command::Shift { .. }
            | Command::Sweep { .. } => false,
        }
    }

    /// The single allows of an allowset, in an order that changes with the set; none of any other
    /// command.
    pub fn single_allows(self) -> Vec<Command> {
        let Command::AllowSet { by, set, on, right, depth } = self else {
            return Vec::new();
        };
        let mut members: Vec<u32> = (0..64).filter(|&item| set >> item & 1 == 1).collect();
        members.sort_by_key(|&item| {
            (set ^ u64::from(item)).wrapping_mul(0x9e37_79b9_7f4a_7c15).rotate_left(23)
        });
        members.into_iter().map(|to| Command::Allow { by, to, on, right, depth }).collect()
    }

    /// The eight drops of a withdraw, in an order that changes with the person and the item; none of
    /// any other command.
    pub fn single_drops(self) -> Vec<Command> {
        let Command::Withdraw { by, to, on, right } = self else {
            return Vec::new();
        };
        let depths = (0..8).map(|n| (n ^ to & 7).wrapping_mul(on | 1) % 8);
        depths.map(|depth| Command::Drop { by, to, on, right, depth }).collect()
    }

    /// The loan that a lend or a recall is about.
    pub fn loan(self) -> Option<Loan> {
        match self {
            Command::Lend { by, to, on, right, depth, last }
            | Command::Recall { by, to, on, right, depth, last } => {
                Some(Loan { lender: by, item: on, right, borrower: to, depth, last })
            }
            _ => None,
        }
    }
}

#[derive(Clone, Debug, PartialEq, Eq)]
pub struct Journal {
    pub live: BTreeSet<u32>,
    pub grants: BTreeSet<Grant>,
    pub loans: BTreeSet<Loan>,
    /// The present shift.
    pub shift: u32,
}

impl Journal {
    pub fn fresh() -> Self {
        Self {
            live: BTreeSet::from([0]),
            grants: BTreeSet::from([Grant { item: 0, right: 0, person: 0, depth: 0 }]),
            loans: BTreeSet::new(),
            shift: 0,
        }
    }

    /// Takes a command: its number and its count, and on 0 the change.
    pub fn give(&mut self, command: Command) -> (u32, u32) {
        let (number, count) = self.returns(command);
        if number == 0 {
            self.change(command);
        }
        (number, count)
    }

    /// The number of a command and its count: of a sweep how many loans are past their last shift, of
    /// any other 0. "Where this or any later call is refused, whatever else it returns is 0".
    pub fn returns(&self, command: Command) -> (u32, u32) {
        let number = self.answer(command);
        let counts = number == 0 && matches!(command, Command::Sweep { .. });
        (number, if counts { self.past().count() as u32 } else { 0 })
    }

    /// The table of answers from 3 on: the first number that applies, in each command's order.
    pub fn answer(&self, command: Command) -> u32 {
        if command.out_of_range() {
            return 3;
        }
        match command {
            Command::AllowSet { .. } => self.answer_all(&command.single_allows()),
            _ if !self.lives(command.by()) => 4,
            Command::Create { on, .. } => self.answer_create(on),
            Command::Delete { by, on } => self.answer_delete(by, on),
            // "drop has withdraw's refusals and 3 for the depth".
            Command::Allow { by, to, on, .. }
            | Command::Withdraw { by, to, on, .. }
            | Command::Drop { by, to, on, .. } => self.answer_edit(by, to, on),
            Command::Lend { by, to, on, right, depth, last } => {
                self.answer_lend(Loan { lender: by, item: on, right, borrower: to, depth, last })
            }
            Command::Recall { to, on, .. } => self.answer_named(to, on),
            Command::Shift { by, now } => self.answer_shift(by, now),
            // "numbers 1 to 4".
            Command::Sweep { .. } => 0,
        }
    }

    fn answer_create(&self, on: u32) -> u32 {
        if self.lives(on) {
            6
        } else {
            0
        }
    }

    fn answer_delete(&self, by: u32, on: u32) -> u32 {
        if !self.lives(on) {
            5
        } else if on == 0 {
            7
        } else if !self.edits(by, on) {
            8
        } else {
            0
        }
    }

    fn answer_named(&self, to: u32, on: u32) -> u32 {
        if self.lives(to) && self.lives(on) {
            0
        } else {
            5
        }
    }

    fn answer_edit(&self, by: u32, to: u32, on: u32) -> u32 {
        let number = self.answer_named(to, on);
        if number == 0 && !self.edits(by, on) {
            return 8;
        }
        number
    }

    /// "the lowest refusal's number, if any of them is refused"; "14 when the set is empty".
    fn answer_all(&self, allows: &[Command]) -> u32 {
        if allows.is_empty() {
            return 14;
        }
        let numbers = allows.iter().map(|&allow| self.answer(allow));
        numbers.filter(|&number| number != 0).min().unwrap_or(0)
    }

    fn answer_lend(&self, loan: Loan) -> u32 {
        let number = self.answer_named(loan.borrower, loan.item);
        if number != 0 {
            number
        } else if loan.right == 0 {
            9
        } else if loan.last != 0 && loan.last < self.shift {
            13
        } else if self.loans.len() == 1024 && !self.loans.contains(&loan) {
            10
        } else {
            0
        }
    }

    /// "needs edit on item 0"; 12 "after 8".
    fn answer_shift(&self, by: u32, now: u32) -> u32 {
        if !self.edits(by, 0) {
            8
        } else if now < self.shift && self.dated().next().is_some() {
            12
        } else {
            0
        }
    }

    fn change(&mut self, command: Command) {
        match command {
            Command::Create { by, on } => {
                self.live.insert(on);
                self.grants.insert(Grant { item: on, right: 0, person: by, depth: 0 });
            }
            Command::Delete { on, .. } => self.delete(on),
            Command::Allow { to, on, right, depth, .. } => {
                self.grants.insert(Grant { item: on, right, person: to, depth });
            }
            // "It does what the single allows do in any order".
            Command::AllowSet { .. } => {
                for allow in command.single_allows() {
                    assert_eq!(self.give(allow), (0, 0), "{allow:?} of {command:?}");
                }
            }
            // "withdraw is eight drops, checked once before the first and done as one".
            Command::Withdraw { .. } => {
                command.single_drops().into_iter().for_each(|drop| self.change(drop));
            }
            Command::Drop { to, on, right, depth, .. } => {
                self.drop(Grant { item: on, right, person: to, depth });
            }
            Command::Lend { by, to, on, right, depth, last } => {
                self.loans.insert(Loan { lender: by, item: on, right, borrower: to, depth, last });
            }
            Command::Recall { by, to, on, right, depth, last } => {
                self.loans.remove(&Loan { lender: by, item: on, right, borrower: to, depth, last });
            }
            Command::Shift { now, .. } => self.shift = now,
            // "ends all loans past their last shift".
            Command::Sweep { .. } => {
                let shift = self.shift;
                self.loans.retain(|loan| loan.carries_in(shift));
            }
        }
    }

    /// The grant ends, if it stands. "when a person's last grant on an item and right ends by withdraw
    /// or drop, the loans that person made there end too".
    fn drop(&mut self, grant: Grant) {
        let Grant { item, right, person, .. } = grant;
        if self.grants.remove(&grant) && !self.granted(person, item, right) {
            self.loans.retain(|l| (l.lender, l.item, l.right) != (person, item, right));
        }
    }

    /// The item leaves the live set, and every grant and loan that names it ends.
    pub fn delete(&mut self, item: u32) {
        self.live.remove(&item);
        self.grants.retain(|g| g.person != item && g.item != item);
        self.loans.retain(|l| l.lender != item && l.item != item && l.borrower != item);
    }

    pub fn lives(&self, item: u32) -> bool {
        self.live.contains(&item)
    }

    /// The loans with a last shift, past ones too.
    pub fn dated(&self) -> impl Iterator<Item = &Loan> {
        self.loans.iter().filter(|loan| loan.last != 0)
    }

    /// The loans past their last shift: it is set, and below the present shift.
    pub fn past(&self) -> impl Iterator<Item = &Loan> {
        self.dated().filter(|loan| loan.last < self.shift)
    }

    /// An edit grant on an item is one of right 0 there, at any depth.
    fn edits(&self, person: u32, item: u32) -> bool {
        self.granted(person, item, 0)
    }

    /// Whether a grant stands at any depth: the check of lists and rows.
    pub fn granted(&self, person: u32, item: u32, right: u32) -> bool {
        self.depths(person, item, right).next().is_some()
    }

    /// The depths granted to a person, rising.
    pub fn depths(&self, person: u32, item: u32, right: u32) -> impl Iterator<Item = u32> + '_ {
        let at = |depth| Grant { item, right, person, depth };
        self.grants.range(at(0)..=at(7)).map(|g| g.depth)
    }

    /// The loans that a person made on an item and right.
    pub fn made(&self, lender: u32, item: u32, right: u32) -> impl Iterator<Item = &Loan> {
        let at = |borrower, depth, last| Loan { lender, item, right, borrower, depth, last };
        self.loans.range(at(0, 0, 0)..=at(63, 7, 255))
    }

    /// The depths of the carrying loans of a lender to a borrower.
    pub fn lent(&self, lender: u32, item: u32, right: u32, borrower: u32) -> Vec<u32> {
        let at = |depth, last| Loan { lender, item, right, borrower, depth, last };
        let loans = self.loans.range(at(0, 0)..=at(7, 255));
        loans.filter(|l| l.carries_in(self.shift)).map(|l| l.depth).collect()
    }

    /// The persons with at least one grant, bit i for item i.
    pub fn subjects(&self) -> u64 {
        self.grants.iter().fold(0, |persons, g| persons | 1 << g.person)
    }

    /// No dead item is named, and item 0 lives.
    pub fn names_live(&self) -> bool {
        let lives = |item: u32| self.live.contains(&item);
        lives(0)
            && self.grants.iter().all(|g| lives(g.person) && lives(g.item))
            && self.loans.iter().all(|l| lives(l.lender) && lives(l.item) && lives(l.borrower))
    }
}
