//! A chain unit over slices, given fixed commands and asked fixed questions. What stands in
//! quotation marks is the text of document 01, or of the request that is named.
#![allow(dead_code)]

use rights::lent;
use rights::lent::chains::Checked;

use crate::engine::{check_chains, give_chains};
use crate::model::commands::{
    allow, allow_set, create, delete, drop, lend, recall, shift, sweep, withdraw, BASE,
};
use crate::model::{Command, GrantLayout, Layout};

/// Who, on, right.
pub type Question = (u32, u32, u32);

/// The images of a chain unit.
#[derive(Clone, PartialEq, Eq)]
pub struct Unit {
    pub grants: Vec<u8>,
    pub loans: Vec<u32>,
}

impl Unit {
    /// A fresh unit, made in buffers that held something else.
    pub fn fresh() -> Self {
        let mut unit = Self { grants: vec![9; GrantLayout::CELLS], loans: vec![9; 1025] };
        unit.make_fresh(0);
        unit
    }

    pub fn make_fresh(&mut self, number: u32) {
        assert_eq!(lent::chains::fresh(&mut self.grants, &mut self.loans), number, "fresh");
    }

    /// What every handover example starts from.
    pub fn base() -> Self {
        Self::fresh().after(&BASE)
    }

    /// 1,024 loans on 9, right 1: from 16 lenders to 8 borrowers at 8 depths, each accepted.
    pub fn full() -> Self {
        let items: Vec<Command> = (1..16).map(|on| create(0, on)).collect();
        let loans = (0..1024).map(|n| lend(n / 64, n / 8 % 8, 9, 1, n % 8, 0));
        Self::fresh().after(&items).after(&loans.collect::<Vec<Command>>())
    }

    /// The unit after commands that it accepts.
    pub fn after(mut self, commands: &[Command]) -> Self {
        self.give(0, commands);
        self
    }

    /// Each command is answered with the number and counts nothing; a refused one leaves "all
    /// unchanged".
    #[track_caller]
    pub fn give(&mut self, number: u32, commands: &[Command]) {
        for &command in commands {
            let before = self.clone();
            let given = give_chains(&mut self.grants, &mut self.loans, command);
            assert_eq!(given, (number, 0), "{command:?}");
            assert!(number == 0 || *self == before, "changed by {command:?}");
        }
    }

    /// A sweep by 0 is accepted and ends so many loans.
    #[track_caller]
    pub fn swept(&mut self, count: u32) {
        let given = give_chains(&mut self.grants, &mut self.loans, sweep(0));
        assert_eq!(given, (0, count), "sweep");
    }

    /// A check with a buffer of sevens, and the buffer after it.
    fn check(&self, question: Question, length: usize) -> (Checked, Vec<u8>) {
        let mut chain = vec![7; length];
        (check_chains(&self.grants, &self.loans, question, &mut chain), chain)
    }

    /// "It writes a chain with that allowance into a lent buffer of 8 bytes, p0 first, 255 after
    /// the end; the answer carries depth and number of persons, 1 to 8."
    #[track_caller]
    pub fn yes(&self, question: Question, depth: u32, persons: &[u8]) {
        let mut chain = persons.to_vec();
        chain.resize(8, 255);
        let checked = Checked { number: 0, depth, persons: persons.len() as u32 };
        assert_eq!(self.check(question, 8), (checked, chain), "{question:?}");
    }

    /// The persons of a yes with that depth, whichever chain it is. K7: "Of several such, the choice
    /// is still open."
    #[track_caller]
    pub fn persons(&self, question: Question, depth: u32) -> Vec<u8> {
        let (checked, chain) = self.check(question, 8);
        let persons = chain[..checked.persons as usize].to_vec();
        assert!(!persons.is_empty(), "{checked:?} for {question:?}");
        self.yes(question, depth, &persons);
        persons
    }

    /// "On no, all 8 bytes are 255, depth and number 0."
    #[track_caller]
    pub fn no(&self, question: Question) {
        let checked = Checked { number: 0, depth: 0, persons: 0 };
        assert_eq!(self.check(question, 8), (checked, vec![255; 8]), "{question:?}");
    }

    /// A refused check leaves its buffer as it was. "Beside a refusal, depth, number of persons and
    /// holder roll are 0."
    #[track_caller]
    pub fn refuse_check(&self, question: Question, length: usize, number: u32) {
        let checked = Checked { number, depth: 0, persons: 0 };
        assert_eq!(self.check(question, length), (checked, vec![7; length]), "{question:?}");
    }

    /// Every call that reads the images is refused with the number: "all unchanged".
    pub fn refuse(&self, number: u32, what: &str) {
        println!("{what}");
        let mut left = self.clone();
        left.give(number, &[create(0, 1), delete(64, 0), allow(0, 0, 0, 1, 0)]);
        left.give(number, &[withdraw(0, 0, 0, 1), lend(0, 0, 0, 1, 0, 0), shift(0, 0)]);
        left.give(number, &[recall(0, 0, 0, 1, 0, 0), shift(64, 0)]);
        left.give(number, &[allow_set(0, 1, 0, 1, 0), allow_set(64, 0, 0, 1, 0)]);
        left.give(number, &[drop(0, 0, 0, 0, 0), drop(64, 0, 0, 1, 8), sweep(0), sweep(64)]);
        left.refuse_check((64, 0, 0), 8, number);
        assert_eq!(lent::chains::inspect(&left.grants, &left.loans), number, "inspect");
        assert!(left == *self, "an image changed");
    }
}
