//! What is measured: the public functions of the engine, as a table of functions that two implementations fill.

pub use rights::{
    Ticket, ALREADY_LIVE, BY_DEAD, CHAIN_PERSONS, DEPTH_MAX, DONE, EDIT_RIGHT, EMPTY_SET, FULL, GRANTS_BYTES, ITEM_MAX,
    LISTS_WORDS, LOANS_MAX, LOANS_WORDS, NAMED_DEAD, NOT_IN_ORDER, NO_EDIT, NO_TICKET, NUMBERS_SPENT, OUT_OF_RANGE,
    RIGHT_MAX, ROOT_ITEM, ROWS_BYTES, SHIFT_MAX, TICKETS_FULL, TICKETS_MAX, TICKETS_WORDS, WRONG_LENGTH,
};

pub const NO_PERSON: u8 = rights::NO_PERSON as u8;

/// The arguments of allow, drop, lend and recall; withdraw leaves the depth aside, and allow_set, which has a set of
/// persons, leaves `to` aside. Every loan is open-ended.
#[derive(Clone, Copy, Debug)]
pub struct Grant {
    pub by: u32,
    pub to: u32,
    pub on: u32,
    pub right: u32,
    pub depth: u32,
}

/// The question of a check.
#[derive(Clone, Copy, Debug)]
pub struct Question {
    pub who: u32,
    pub on: u32,
    pub right: u32,
}

/// A number and a value: yes or no of a check, the persons of a subject set, the loans that a sweep ended, the number of
/// a new ticket.
#[derive(Clone, Copy, Debug, PartialEq)]
pub struct Said {
    pub number: u32,
    pub value: u64,
}

/// What a chain unit's check answers beside the chain.
#[derive(Clone, Copy, Debug, PartialEq)]
pub struct Found {
    pub number: u32,
    pub depth: u32,
    pub persons: u32,
}

/// Lists (cells of 64 bits) or rows (cells of 8 bits).
pub struct Flat<C: 'static> {
    pub fresh: fn(&mut [C]) -> u32,
    pub create: fn(&mut [C], u32, u32) -> u32,
    pub delete: fn(&mut [C], u32, u32) -> u32,
    pub allow: fn(&mut [C], Grant) -> u32,
    pub allow_set: fn(&mut [C], u64, Grant) -> u32,
    pub withdraw: fn(&mut [C], Grant) -> u32,
    pub check: fn(&[C], Question) -> Said,
    pub subjects: fn(&[C]) -> Said,
    pub inspect: fn(&[C]) -> u32,
}

pub struct Chains {
    pub fresh: fn(&mut [u8], &mut [u32]) -> u32,
    pub create: fn(&mut [u8], &mut [u32], u32, u32) -> u32,
    pub delete: fn(&mut [u8], &mut [u32], u32, u32) -> u32,
    pub allow: fn(&mut [u8], &mut [u32], Grant) -> u32,
    pub allow_set: fn(&mut [u8], &mut [u32], u64, Grant) -> u32,
    pub withdraw: fn(&mut [u8], &mut [u32], Grant) -> u32,
    pub drop: fn(&mut [u8], &mut [u32], Grant) -> u32,
    pub lend: fn(&mut [u8], &mut [u32], Grant) -> u32,
    pub recall: fn(&mut [u8], &mut [u32], Grant) -> u32,
    pub sweep: fn(&mut [u8], &mut [u32], u32) -> Said,
    pub check: fn(&[u8], &[u32], Question, &mut [u8]) -> Found,
    pub inspect: fn(&[u8], &[u32]) -> u32,
}

pub struct Tickets {
    pub fresh: fn(&mut [u64]) -> u32,
    pub create: fn(&mut [u64], u32, u32) -> u32,
    pub generate: fn(&mut [u64], u32, u32, u32) -> Said,
    pub pass: fn(&mut [u64], u32, u32, u32) -> u32,
    pub remove: fn(&mut [u64], u32, u32) -> u32,
    pub delete: fn(&mut [u64], u32, u32) -> u32,
    pub check: fn(&[u64], Question) -> Said,
    pub inspect: fn(&[u64]) -> u32,
    pub records: fn(&[u64], &mut [Ticket]) -> u32,
    pub at: fn(&[Ticket], usize) -> Ticket,
    pub check_records: fn(&[Ticket], Question) -> Said,
}

pub struct Api {
    pub lists: Flat<u64>,
    pub rows: Flat<u8>,
    pub lists_to_rows: fn(&[u64], &mut [u8]) -> u32,
    pub rows_to_lists: fn(&[u8], &mut [u64]) -> u32,
    pub chains: Chains,
    pub tickets: Tickets,
}
