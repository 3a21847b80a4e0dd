//! The image of a ticket unit by the paper's formulas, and the state that an image says: "word 0 the
//! live set, word 1 the next number, then 1,024 records of two words", the first of which is
//! "number + item·2^32 + right·2^40 + issuer·2^48" and the second the set of holders.

use std::collections::{BTreeMap, BTreeSet};

use super::tickets::{LiveTicket, TicketState, PLACES};

pub const TICKET_WORDS: usize = 2 + 2 * PLACES;

fn set_word(items: &BTreeSet<u32>) -> u64 {
    items.iter().map(|&item| 2u64.pow(item)).sum()
}

fn set_of(word: u64) -> BTreeSet<u32> {
    (0..64).filter(|&item| word / 2u64.pow(item) % 2 == 1).collect()
}

/// The two words of a ticket.
pub fn ticket_words(ticket: &LiveTicket) -> [u64; 2] {
    let fields = [ticket.number, ticket.item, ticket.right, ticket.issuer].map(u64::from);
    let places = [1, 2u64.pow(32), 2u64.pow(40), 2u64.pow(48)];
    let word = fields.iter().zip(places).map(|(field, place)| field * place).sum();
    [word, set_word(&ticket.holders)]
}

/// The fields of a record, whatever it holds: number, item, right, issuer, holders.
pub fn record_of(words: &[u64]) -> LiveTicket {
    let field = |place: u32, bits: u32| (words[0] / 2u64.pow(place) % 2u64.pow(bits)) as u32;
    LiveTicket {
        number: field(0, 32),
        item: field(32, 8),
        right: field(40, 8),
        issuer: field(48, 16),
        holders: set_of(words[1]),
    }
}

pub fn ticket_image(state: &TicketState) -> Vec<u64> {
    let mut image = vec![0; TICKET_WORDS];
    image[0] = set_word(&state.live);
    image[1] = state.next.into();
    for (place, ticket) in &state.tickets {
        image[2 + 2 * place..][..2].copy_from_slice(&ticket_words(ticket));
    }
    image
}

/// The state that an image says, or the number that refuses it.
pub fn ticket_state(image: &[u64]) -> Result<TicketState, u32> {
    if image.len() != TICKET_WORDS {
        return Err(1);
    }
    let mut tickets = BTreeMap::new();
    for (place, words) in image[2..].chunks(2).enumerate() {
        let record = record_of(words);
        // "each record is all zero or has a holder".
        if record.holders.is_empty() && words[0] != 0 {
            return Err(2);
        }
        if !record.holders.is_empty() {
            tickets.insert(place, record);
        }
    }
    let next = u32::try_from(image[1]).map_err(|_| 2u32)?;
    TicketState { live: set_of(image[0]), next, tickets }.if_in_order().ok_or(2)
}
