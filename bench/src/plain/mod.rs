//! The engine once more, in plain safe Rust: the same images, the same checks in the same order, the same answers. It
//! has no command of shifts and makes loans open-ended; its check takes any, withdraw and drop end any, and so does
//! sweep. It is what the proved engine is measured against.

pub mod chains;
pub mod convert;
pub mod lists;
pub mod loans;
pub mod rounds;
pub mod rows;
pub mod settling;
pub mod tickets;

use crate::api::*;

/// A best chain: the depth that it ends with, its persons, the grant's first, and how many they are.
pub struct Best {
    pub depth: u32,
    pub persons: [u8; CHAIN_PERSONS],
    pub count: usize,
}

/// Done, or the number of the refusal.
pub type Answer = Result<(), u32>;

pub fn number(answer: Answer) -> u32 {
    answer.err().unwrap_or(DONE)
}

pub fn require(holds: bool, refusal: u32) -> Answer {
    if holds {
        Ok(())
    } else {
        Err(refusal)
    }
}

pub fn in_range(items: &[u32], right: u32, depth: u32) -> Answer {
    let items_fit = items.iter().all(|&item| item <= ITEM_MAX);
    require(items_fit && right <= RIGHT_MAX && depth <= DEPTH_MAX, OUT_OF_RANGE)
}

/// What the table of answers asks of a unit, and what an accepted command does to it.
pub trait Unit {
    /// Numbers 1 and 2.
    fn order(&self) -> Answer;
    /// The live set.
    fn live(&self) -> u64;
    fn holds(&self, who: u32, on: u32, right: u32) -> bool;
    fn put_item(&mut self, on: u32);
    fn drop_item(&mut self, on: u32);
    fn put_grant(&mut self, to: u32, on: u32, right: u32, depth: u32);
    /// The grant to every member of the set.
    fn put_grants(&mut self, set: u64, on: u32, right: u32, depth: u32);
    fn drop_grants(&mut self, to: u32, on: u32, right: u32);

    fn lives(&self, item: u32) -> bool {
        lives_in(self.live(), item)
    }
}

/// A unit of one image, which can be asked for a grant and for its subjects.
pub trait Image: Unit {
    fn persons(&self) -> u64;
}

fn try_create(unit: &mut (impl Unit + ?Sized), by: u32, on: u32) -> Answer {
    unit.order()?;
    in_range(&[by, on], 0, 0)?;
    require(unit.lives(by), BY_DEAD)?;
    require(!unit.lives(on), ALREADY_LIVE)?;
    unit.put_item(on);
    unit.put_grant(by, on, 0, 0);
    Ok(())
}

fn try_delete(unit: &mut (impl Unit + ?Sized), by: u32, on: u32) -> Answer {
    unit.order()?;
    in_range(&[by, on], 0, 0)?;
    require(unit.lives(by), BY_DEAD)?;
    require(unit.lives(on), NAMED_DEAD)?;
    require(on != 0, ROOT_ITEM)?;
    require(unit.holds(by, on, 0), NO_EDIT)?;
    unit.drop_item(on);
    Ok(())
}

/// Numbers 1 to 5 of a command about a grant or a loan.
fn named(unit: &(impl Unit + ?Sized), g: Grant, depth: u32) -> Answer {
    unit.order()?;
    in_range(&[g.by, g.to, g.on], g.right, depth)?;
    require(unit.lives(g.by), BY_DEAD)?;
    require(unit.lives(g.on) && unit.lives(g.to), NAMED_DEAD)
}

fn try_allow(unit: &mut (impl Unit + ?Sized), g: Grant) -> Answer {
    named(unit, g, g.depth)?;
    require(unit.holds(g.by, g.on, 0), NO_EDIT)?;
    unit.put_grant(g.to, g.on, g.right, g.depth);
    Ok(())
}

fn try_allow_set(unit: &mut (impl Unit + ?Sized), set: u64, g: Grant) -> Answer {
    unit.order()?;
    in_range(&[g.by, g.on], g.right, g.depth)?;
    require(set != 0, EMPTY_SET)?;
    require(unit.lives(g.by), BY_DEAD)?;
    require(unit.lives(g.on) && set & !unit.live() == 0, NAMED_DEAD)?;
    require(unit.holds(g.by, g.on, 0), NO_EDIT)?;
    unit.put_grants(set, g.on, g.right, g.depth);
    Ok(())
}

fn try_withdraw(unit: &mut (impl Unit + ?Sized), g: Grant) -> Answer {
    named(unit, g, 0)?;
    require(unit.holds(g.by, g.on, 0), NO_EDIT)?;
    unit.drop_grants(g.to, g.on, g.right);
    Ok(())
}

pub fn create<U: Unit + ?Sized>(unit: &mut U, by: u32, on: u32) -> u32 {
    number(try_create(unit, by, on))
}

pub fn delete<U: Unit + ?Sized>(unit: &mut U, by: u32, on: u32) -> u32 {
    number(try_delete(unit, by, on))
}

pub fn allow<U: Unit + ?Sized>(unit: &mut U, g: Grant) -> u32 {
    number(try_allow(unit, g))
}

pub fn allow_set<U: Unit + ?Sized>(unit: &mut U, set: u64, g: Grant) -> u32 {
    number(try_allow_set(unit, set, g))
}

pub fn withdraw<U: Unit + ?Sized>(unit: &mut U, g: Grant) -> u32 {
    number(try_withdraw(unit, g))
}

pub fn check<I: Image + ?Sized>(image: &I, q: Question) -> Said {
    match image.order().and_then(|()| in_range(&[q.who, q.on], q.right, 0)) {
        Ok(()) => Said { number: DONE, value: u64::from(image.holds(q.who, q.on, q.right)) },
        Err(refusal) => Said { number: refusal, value: 0 },
    }
}

pub fn subjects<I: Image + ?Sized>(image: &I) -> Said {
    match image.order() {
        Ok(()) => Said { number: DONE, value: image.persons() },
        Err(refusal) => Said { number: refusal, value: 0 },
    }
}

pub fn inspect<I: Image + ?Sized>(image: &I) -> u32 {
    number(image.order())
}

/// A live set of item 0 alone and one edit grant, in cells of any width.
fn fresh<C: Copy + From<u8>>(image: &mut [C], cells: usize, first_grant: usize) -> u32 {
    if image.len() != cells {
        return WRONG_LENGTH;
    }
    image.fill(C::from(0));
    image[0] = C::from(1);
    image[first_grant] = C::from(1);
    DONE
}

fn or_rows(all: [u8; 64], row: &[u8]) -> [u8; 64] {
    std::array::from_fn(|place| all[place] | row[place])
}

/// Whether item 0 lives and the cells name no dead item. A row has a cell for each of 64 items, and each item
/// has `ROWS` rows of its own.
pub fn cells_in_order<const ROWS: usize>(image: &[u8]) -> bool {
    let live = live_set(image);
    let (mut of_live, mut of_dead) = ([0; 64], [0; 64]);
    for (item, block) in image[8..].chunks_exact(64 * ROWS).enumerate() {
        let all = block.chunks_exact(64).fold([0; 64], or_rows);
        let side = if lives_in(live, item as u32) { &mut of_live } else { &mut of_dead };
        *side = or_rows(*side, &all);
    }
    let masks = dead_masks(live);
    let bad = of_live.iter().zip(&masks).fold(0, |bad, (cell, mask)| bad | (cell & mask));
    live & 1 == 1 && of_dead.iter().fold(bad, |bad, cell| bad | cell) == 0
}

/// The live set of an image of bytes.
pub fn live_set(image: &[u8]) -> u64 {
    u64::from_le_bytes(image[..8].try_into().expect("8 bytes"))
}

pub fn lives_in(live: u64, item: u32) -> bool {
    live >> item & 1 == 1
}

/// The places of the set bits of a word, rising.
pub fn bits(mut word: u64) -> impl Iterator<Item = usize> {
    std::iter::from_fn(move || {
        let place = word.trailing_zeros() as usize;
        let more = word != 0;
        word &= word.wrapping_sub(1);
        more.then_some(place)
    })
}

/// For each item 0 where it lives and 255 where it is dead.
pub fn dead_masks(live: u64) -> [u8; 64] {
    std::array::from_fn(|item| if lives_in(live, item as u32) { 0 } else { 255 })
}

pub const PLAIN: Api = Api {
    lists: Flat {
        fresh: |image| fresh(image, LISTS_WORDS, 1),
        create: create::<[u64]>,
        delete: delete::<[u64]>,
        allow: allow::<[u64]>,
        allow_set: allow_set::<[u64]>,
        withdraw: withdraw::<[u64]>,
        check: check::<[u64]>,
        subjects: subjects::<[u64]>,
        inspect: inspect::<[u64]>,
    },
    rows: Flat {
        fresh: |image| fresh(image, ROWS_BYTES, 8),
        create: create::<[u8]>,
        delete: delete::<[u8]>,
        allow: allow::<[u8]>,
        allow_set: allow_set::<[u8]>,
        withdraw: withdraw::<[u8]>,
        check: check::<[u8]>,
        subjects: subjects::<[u8]>,
        inspect: inspect::<[u8]>,
    },
    lists_to_rows: convert::lists_to_rows,
    rows_to_lists: convert::rows_to_lists,
    chains: chains::UNIT,
    tickets: tickets::UNIT,
};

/// The chain unit whose check settles each person once, for open-ended loans.
pub const SETTLING: Chains = chains::SETTLING;
