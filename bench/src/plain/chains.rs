//! The chain unit: grants with depths, loans, and the check that follows them.

use super::settling::Reach;
use super::{bits, cells_in_order, in_range, live_set, loans, named, number, require, rounds, Answer, Best, Unit};
use crate::api::{self, *};

struct Chains<'a> {
    grants: &'a mut [u8],
    loans: &'a mut [u32],
}

fn place(who: u32, on: u32, right: u32) -> usize {
    (8 + 512 * on + 64 * right + who) as usize
}

impl Chains<'_> {
    /// Ends these depths of the grants, a bit each; with the last one that stood, the loans that the person made there.
    fn end_depths(&mut self, to: u32, on: u32, right: u32, depths: u8) {
        let cell = &mut self.grants[place(to, on, right)];
        let stood = std::mem::replace(cell, *cell & !depths);
        if stood != 0 && *cell == 0 {
            loans::remove_of_lender(self.loans, to, on, right);
        }
    }
}

impl Unit for Chains<'_> {
    fn order(&self) -> Answer {
        order(self.grants, self.loans)
    }

    fn live(&self) -> u64 {
        live_set(self.grants)
    }

    fn holds(&self, who: u32, on: u32, right: u32) -> bool {
        self.grants[place(who, on, right)] != 0
    }

    fn put_item(&mut self, on: u32) {
        self.grants[on as usize / 8] |= 1 << (on % 8);
    }

    fn drop_item(&mut self, on: u32) {
        self.grants[on as usize / 8] &= !(1 << (on % 8));
        let own = place(0, on, 0);
        self.grants[own..own + 512].fill(0);
        self.grants[place(on, 0, 0)..].iter_mut().step_by(64).for_each(|byte| *byte = 0);
        loans::remove_naming(self.loans, on);
    }

    fn put_grant(&mut self, to: u32, on: u32, right: u32, depth: u32) {
        self.grants[place(to, on, right)] |= 1 << depth;
    }

    fn put_grants(&mut self, set: u64, on: u32, right: u32, depth: u32) {
        let own = place(0, on, right);
        bits(set).for_each(|to| self.grants[own + to] |= 1 << depth);
    }

    fn drop_grants(&mut self, to: u32, on: u32, right: u32) {
        self.end_depths(to, on, right, u8::MAX);
    }
}

fn order(grants: &[u8], table: &[u32]) -> Answer {
    require(grants.len() == GRANTS_BYTES && table.len() == LOANS_WORDS, WRONG_LENGTH)?;
    let live = live_set(grants);
    require(cells_in_order::<8>(grants) && loans::in_order(table, live), NOT_IN_ORDER)
}

fn fresh(grants: &mut [u8], table: &mut [u32]) -> u32 {
    if grants.len() != GRANTS_BYTES || table.len() != LOANS_WORDS {
        return WRONG_LENGTH;
    }
    grants.fill(0);
    table.fill(0);
    grants[0] = 1;
    grants[8] = 1;
    DONE
}

fn try_drop(unit: &mut Chains, g: Grant) -> Answer {
    named(unit, g, g.depth)?;
    require(unit.holds(g.by, g.on, 0), NO_EDIT)?;
    unit.end_depths(g.to, g.on, g.right, 1 << g.depth);
    Ok(())
}

fn try_lend(unit: &mut Chains, g: Grant) -> Answer {
    named(unit, g, g.depth)?;
    require(g.right != 0, EDIT_RIGHT)?;
    let loan = loans::code(g.by, g.on, g.right, g.to, g.depth);
    if let Err(place) = loans::find(unit.loans, loan) {
        require(loans::count(unit.loans) < LOANS_MAX as usize, FULL)?;
        loans::insert(unit.loans, place, loan);
    }
    Ok(())
}

fn try_recall(unit: &mut Chains, g: Grant) -> Answer {
    named(unit, g, g.depth)?;
    let loan = loans::code(g.by, g.on, g.right, g.to, g.depth);
    if let Ok(place) = loans::find(unit.loans, loan) {
        loans::remove(unit.loans, place);
    }
    Ok(())
}

/// How many loans were past and have ended.
fn try_sweep(unit: &mut Chains, by: u32) -> Result<usize, u32> {
    unit.order()?;
    in_range(&[by], 0, 0)?;
    require(unit.lives(by), BY_DEAD)?;
    Ok(loans::remove_past(unit.loans))
}

fn sweep(grants: &mut [u8], loans: &mut [u32], by: u32) -> Said {
    match try_sweep(&mut Chains { grants, loans }, by) {
        Ok(swept) => Said { number: DONE, value: swept as u64 },
        Err(refusal) => Said { number: refusal, value: 0 },
    }
}

fn judge_check(grants: &[u8], table: &[u32], q: Question, room: usize) -> Answer {
    require(room == CHAIN_PERSONS, WRONG_LENGTH)?;
    order(grants, table)?;
    in_range(&[q.who, q.on], q.right, 0)
}

/// A check whose chain is found by the search, which gets the grants' bytes of the item and right.
fn check_by(
    grants: &[u8],
    table: &[u32],
    q: Question,
    chain: &mut [u8],
    search: impl FnOnce(&[u8]) -> Option<Best>,
) -> Found {
    if let Err(refusal) = judge_check(grants, table, q, chain.len()) {
        return Found { number: refusal, depth: 0, persons: 0 };
    }
    let first = place(0, q.on, q.right);
    match search(&grants[first..first + 64]) {
        Some(Best { depth, persons, count }) => {
            chain.copy_from_slice(&persons);
            Found { number: DONE, depth, persons: count as u32 }
        }
        None => {
            chain.fill(NO_PERSON);
            Found { number: DONE, depth: 0, persons: 0 }
        }
    }
}

fn check(grants: &[u8], table: &[u32], q: Question, chain: &mut [u8]) -> Found {
    check_by(grants, table, q, chain, |of_key| rounds::best(of_key, table, q.who as usize, q.on, q.right))
}

fn check_settling(grants: &[u8], table: &[u32], q: Question, chain: &mut [u8]) -> Found {
    check_by(grants, table, q, chain, |of_key| {
        Reach::new(of_key, loans::in_use(table), q.on, q.right).chain(q.who as usize)
    })
}

pub const SETTLING: api::Chains = api::Chains { check: check_settling, ..UNIT };

pub const UNIT: api::Chains = api::Chains {
    fresh,
    create: |grants, loans, by, on| super::create(&mut Chains { grants, loans }, by, on),
    delete: |grants, loans, by, on| super::delete(&mut Chains { grants, loans }, by, on),
    allow: |grants, loans, g| super::allow(&mut Chains { grants, loans }, g),
    allow_set: |grants, loans, set, g| super::allow_set(&mut Chains { grants, loans }, set, g),
    withdraw: |grants, loans, g| super::withdraw(&mut Chains { grants, loans }, g),
    drop: |grants, loans, g| number(try_drop(&mut Chains { grants, loans }, g)),
    lend: |grants, loans, g| number(try_lend(&mut Chains { grants, loans }, g)),
    recall: |grants, loans, g| number(try_recall(&mut Chains { grants, loans }, g)),
    sweep,
    check,
    inspect: |grants, loans| number(order(grants, loans)),
};
