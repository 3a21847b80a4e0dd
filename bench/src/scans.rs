//! The in-order scans against reading the same memory once.

use crate::api::*;
use crate::calls::Line;
use crate::engine::ENGINE;
use crate::measure::compare;
use crate::plain::PLAIN;
use crate::state::{home, written, ChainState};
use crate::tickets::TicketState;

fn sum_bytes(image: &[u8]) -> u64 {
    image.chunks_exact(8).fold(0, |sum, eight| sum.wrapping_add(u64::from_le_bytes(eight.try_into().expect("8 bytes"))))
}

fn sum_words(image: &[u64]) -> u64 {
    image.iter().fold(0, |sum, word| sum.wrapping_add(*word))
}

fn sum_loans(table: &[u32]) -> u64 {
    u64::from(table.iter().fold(0u32, |sum, word| sum.wrapping_add(*word)))
}

fn scan<S>(name: String, mut state: S, inspect: fn(&S) -> u64, read: fn(&S) -> u64) -> Line {
    assert_eq!(inspect(&state), u64::from(DONE), "{name}: not in order");
    Line { name, times: compare(&mut state, 1, |s| inspect(s), |s| read(s)) }
}

fn chain_scan(loans: u32) -> Line {
    let inspect = |s: &ChainState| u64::from((ENGINE.chains.inspect)(&s.grants, &s.loans));
    let read = |s: &ChainState| sum_bytes(&s.grants).wrapping_add(sum_loans(&s.loans));
    scan(format!("grants and loans, {} loans", written(loans)), ChainState::spread(loans), inspect, read)
}

fn ticket_scan(name: &str, state: TicketState) -> Line {
    let inspect = |s: &TicketState| u64::from((ENGINE.tickets.inspect)(&s.image));
    scan(name.to_string(), state, inspect, |s| sum_words(&s.image))
}

pub fn scans() -> Vec<Line> {
    let lists = home(&PLAIN.lists, LISTS_WORDS);
    let rows = home(&PLAIN.rows, ROWS_BYTES);
    vec![
        scan("lists".to_string(), lists, |s| u64::from((ENGINE.lists.inspect)(s)), |s| sum_words(s)),
        scan("rows".to_string(), rows, |s| u64::from((ENGINE.rows.inspect)(s)), |s| sum_bytes(s)),
        chain_scan(0),
        chain_scan(64),
        chain_scan(1024),
        ticket_scan("tickets, 1,024 rising", TicketState::rising(1024)),
        ticket_scan("tickets, 1,024 shuffled", TicketState::shuffled(1024)),
    ]
}
