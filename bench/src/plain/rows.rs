//! Capability rows: a byte of rights for each person and item.

use super::{bits, cells_in_order, live_set, require, Answer, Image, Unit};
use crate::api::*;

fn place(who: u32, on: u32) -> usize {
    (8 + 64 * who + on) as usize
}

impl Unit for [u8] {
    fn order(&self) -> Answer {
        require(self.len() == ROWS_BYTES, WRONG_LENGTH)?;
        require(cells_in_order::<1>(self), NOT_IN_ORDER)
    }

    fn live(&self) -> u64 {
        live_set(self)
    }

    fn holds(&self, who: u32, on: u32, right: u32) -> bool {
        self[place(who, on)] >> right & 1 == 1
    }

    fn put_item(&mut self, on: u32) {
        self[on as usize / 8] |= 1 << (on % 8);
    }

    fn drop_item(&mut self, on: u32) {
        self[on as usize / 8] &= !(1 << (on % 8));
        let own = place(on, 0);
        self[own..own + 64].fill(0);
        self[place(0, on)..].iter_mut().step_by(64).for_each(|byte| *byte = 0);
    }

    fn put_grant(&mut self, to: u32, on: u32, right: u32, _depth: u32) {
        self[place(to, on)] |= 1 << right;
    }

    fn put_grants(&mut self, set: u64, on: u32, right: u32, _depth: u32) {
        bits(set).for_each(|to| self[place(to as u32, on)] |= 1 << right);
    }

    fn drop_grants(&mut self, to: u32, on: u32, right: u32) {
        self[place(to, on)] &= !(1 << right);
    }
}

impl Image for [u8] {
    fn persons(&self) -> u64 {
        self[8..].chunks_exact(64).enumerate().fold(0, |persons, (who, row)| {
            let rights = row.iter().fold(0, |all, byte| all | byte);
            persons | (u64::from(rights != 0) << who)
        })
    }
}
