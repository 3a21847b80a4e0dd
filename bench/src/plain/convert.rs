//! Lists to rows and rows to lists: grant by grant, from the set bits of the image that is read.

use super::{bits, live_set, number, require, Unit};
use crate::api::*;

fn rows_from(lists: &[u64], rows: &mut [u8]) {
    let (live, cells) = rows.split_at_mut(8);
    live.copy_from_slice(&lists[0].to_le_bytes());
    cells.fill(0);
    for (key, &word) in lists[1..].iter().enumerate() {
        bits(word).for_each(|person| cells[64 * person + key / 8] |= 1 << (key % 8));
    }
}

pub fn lists_to_rows(lists: &[u64], rows: &mut [u8]) -> u32 {
    let judged = require(rows.len() == ROWS_BYTES, WRONG_LENGTH).and_then(|()| lists.order());
    if judged.is_ok() {
        rows_from(lists, rows);
    }
    number(judged)
}

fn lists_from(rows: &[u8], lists: &mut [u64]) {
    lists.fill(0);
    lists[0] = live_set(rows);
    for (at, eight) in rows[8..].chunks_exact(8).enumerate() {
        let word = u64::from_le_bytes(eight.try_into().expect("8 bytes"));
        let (person, first) = (at / 8, 64 * (at % 8));
        bits(word).for_each(|bit| lists[1 + first + bit] |= 1 << person);
    }
}

pub fn rows_to_lists(rows: &[u8], lists: &mut [u64]) -> u32 {
    let judged = require(lists.len() == LISTS_WORDS, WRONG_LENGTH).and_then(|()| rows.order());
    if judged.is_ok() {
        lists_from(rows, lists);
    }
    number(judged)
}
