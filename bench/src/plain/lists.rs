//! Access control lists: a word of persons for each item and right.

use super::{lives_in, require, Answer, Image, Unit};
use crate::api::*;

fn place(on: u32, right: u32) -> usize {
    (1 + 8 * on + right) as usize
}

impl Unit for [u64] {
    fn order(&self) -> Answer {
        require(self.len() == LISTS_WORDS, WRONG_LENGTH)?;
        let live = self[0];
        let bad = self[1..].chunks_exact(8).enumerate().fold(0, |bad, (on, rights)| {
            let persons = rights.iter().fold(0, |all, word| all | word);
            let allowed = if lives_in(live, on as u32) { live } else { 0 };
            bad | (persons & !allowed)
        });
        require(live & 1 == 1 && bad == 0, NOT_IN_ORDER)
    }

    fn live(&self) -> u64 {
        self[0]
    }

    fn holds(&self, who: u32, on: u32, right: u32) -> bool {
        lives_in(self[place(on, right)], who)
    }

    fn put_item(&mut self, on: u32) {
        self[0] |= 1 << on;
    }

    fn drop_item(&mut self, on: u32) {
        self.iter_mut().for_each(|word| *word &= !(1 << on));
        let own = place(on, 0);
        self[own..own + 8].fill(0);
    }

    fn put_grant(&mut self, to: u32, on: u32, right: u32, _depth: u32) {
        self[place(on, right)] |= 1 << to;
    }

    fn put_grants(&mut self, set: u64, on: u32, right: u32, _depth: u32) {
        self[place(on, right)] |= set;
    }

    fn drop_grants(&mut self, to: u32, on: u32, right: u32) {
        self[place(on, right)] &= !(1 << to);
    }
}

impl Image for [u64] {
    fn persons(&self) -> u64 {
        self[1..].iter().fold(0, |all, word| all | word)
    }
}
