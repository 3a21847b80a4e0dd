//! The records of a ticket unit as structs, and images whose numbers stand in every shape: rising and
//! falling, shuffled, alike in either half, twice at the far ends.

mod engine;
mod generator;
mod model;
mod ticket_generator;
mod ticket_unit;

use std::collections::{BTreeMap, BTreeSet};

use generator::{seed, Random};
use model::tickets::{LAST_NUMBER, PLACES};
use model::{ticket_image, ticket_words, LiveTicket, TicketState};
use rights::lent::tickets;
use rights::Ticket;
use ticket_generator::{TicketGenerator, TICKET_BIASES};
use ticket_unit::{generate, pass, remove, ticket, TicketUnit};

const HELD: Ticket = Ticket { number: 1, item: 2, right: 3, issuer: 4, holders: 5 };

/// "Read as memory on a little-endian machine a record is `Ticket { number: u32, item: u8, right: u8,
/// issuer: u16, holders: u64 }` with no padding": the bytes of an image and of its records.
#[test]
fn records_are_the_images_memory() {
    assert_eq!((size_of::<Ticket>(), align_of::<Ticket>()), (16, 8));
    for (n, bias) in (0..).zip(TICKET_BIASES) {
        let mut generator = TicketGenerator::new(seed() + n, bias);
        let state = generator.state([0, 1, 17, 1023, 1024][n as usize % 5], 3_000_000_000, 80);
        let image = ticket_image(&state);
        let mut records = vec![HELD; PLACES];
        assert_eq!(tickets::records(&image, &mut records), 0);
        let bytes: Vec<u8> = records
            .iter()
            .flat_map(|t| {
                let mut bytes = t.number.to_le_bytes().to_vec();
                bytes.extend([t.item, t.right]);
                bytes.extend(t.issuer.to_le_bytes());
                bytes.extend(t.holders.to_le_bytes());
                bytes
            })
            .collect();
        let memory: Vec<u8> = image[2..].iter().flat_map(|word| word.to_le_bytes()).collect();
        assert!(bytes == memory, "{}", bias.name);
        // SAFETY: a ticket has no padding, and any byte is a number.
        let raw = unsafe { std::slice::from_raw_parts(records.as_ptr().cast::<u8>(), 16 * PLACES) };
        assert!(raw == memory, "{}", bias.name);
    }
}

/// Each field of a record, of which no two are the same.
#[test]
fn fields() {
    let mut state = TicketState::fresh();
    state.live.extend([9, 40, 63]);
    state.next = 3_000_000_000;
    state.tickets.insert(1023, ticket(2_999_999_999, 40, 6, 63, &[9, 63]));
    let image = ticket_image(&state);
    let mut records = [HELD; PLACES];
    assert_eq!(tickets::records(&image, &mut records), 0);
    let last =
        Ticket { number: 2_999_999_999, item: 40, right: 6, issuer: 63, holders: 1 << 9 | 1 << 63 };
    assert_eq!(records[1023], last);
    assert_eq!(records[0], Ticket { number: 0, item: 0, right: 0, issuer: 0, holders: 1 });
    assert!(records[1..1023].iter().all(|record| *record == Ticket::default()));
    assert_eq!(tickets::at(&records, 1023), last);
    assert_eq!(tickets::check_records(&records, 9, 40, 6), (0, 1));
    assert_eq!(tickets::check_records(&records, 63, 40, 6), (0, 1));
    for (who, on, right) in [(40, 9, 6), (9, 40, 5), (9, 41, 6), (8, 40, 6), (0, 40, 6)] {
        assert_eq!(tickets::check_records(&records, who, on, right), (0, 0));
    }
    assert_eq!(tickets::check_records(&records, 0, 0, 0), (0, 1));
}

/// "the all-zero record past the end", of any number of records, none among them.
#[test]
fn at() {
    let vacant = Ticket { number: 0, item: 0, right: 0, issuer: 0, holders: 0 };
    let record = |n: u32| Ticket { number: n, item: n as u8, right: 3, issuer: 4, holders: 5 };
    for places in [0, 1, 2, 7, 1023, 1024, 1025] {
        let records: Vec<Ticket> = (0..places).map(|n| record(n + 1)).collect();
        for place in 0..places {
            assert_eq!(tickets::at(&records, place as usize), record(place + 1));
        }
        // Just past the end, far beyond, and places that look small where a number is cut.
        let end = places as usize;
        let past = [end, end + 1, 2048, 1 << 16, 1 << 32, (1 << 32) + 5, 1 << 60, usize::MAX];
        for place in past {
            assert_eq!(tickets::at(&records, place), vacant, "{places}, {place}");
        }
        assert!(records.iter().zip(1..).all(|(kept, n)| *kept == record(n)));
    }
}

/// 1 where places is not 1,024, before 3; beside it 0 for yes.
#[test]
fn check_records_refused() {
    let records = vec![Ticket { number: 0, item: 0, right: 0, issuer: 0, holders: 1 }; 2048];
    for places in [0, 1, 2, 1023, 1025, 2048] {
        assert_eq!(tickets::check_records(&records[..places], 0, 0, 0), (1, 0), "{places}");
        assert_eq!(tickets::check_records(&records[..places], 64, 0, 0), (1, 0), "{places}");
    }
    let records = &records[..1024];
    assert_eq!(tickets::check_records(records, 0, 0, 0), (0, 1));
    for (who, on, right) in [(64, 0, 0), (0, 64, 0), (0, 0, 8), (u32::MAX, 0, 0), (0, 256, 0)] {
        assert_eq!(tickets::check_records(records, who, on, right), (3, 0));
    }
    assert_eq!(tickets::check_records(&records[..1024], 0, 0, 256), (3, 0));
}

/// A ticket at each place alone is found there, by the check of the image and by that of records.
#[test]
fn found_at_every_place() {
    for place in 0..PLACES {
        let mut state = TicketState::fresh();
        state.live.insert(9);
        state.next = 2;
        state.tickets = BTreeMap::from([(place, ticket(1, 9, 4, 3, &[9]))]);
        let image = ticket_image(&state);
        let mut records = vec![HELD; PLACES];
        assert_eq!(tickets::records(&image, &mut records), 0);
        for (who, yes) in [(9, 1), (3, 0), (0, 0)] {
            assert_eq!(tickets::check(&image, who, 9, 4), (0, yes), "{place}");
            assert_eq!(tickets::check_records(&records, who, 9, 4), (0, yes), "{place}");
        }
        let mut unit = TicketUnit::of(state);
        unit.accept(&[pass(9, 0, 1)]);
        unit.refuse(17, &[remove(9, 1), generate(0, 0, 0), pass(9, 0, 2)]);
    }
}

/// The shapes of so many numbers that differ: what they are called, and the numbers.
fn shapes(count: u32, random: &mut Random) -> Vec<(&'static str, Vec<u32>)> {
    let rising: Vec<u32> = (0..count).collect();
    let shuffled = |mut numbers: Vec<u32>, random: &mut Random| {
        for at in (1..numbers.len()).rev() {
            numbers.swap(at, random.below(at as u32 + 1) as usize);
        }
        numbers
    };
    let falling: Vec<u32> = rising.iter().rev().copied().collect();
    let low_alike: Vec<u32> = rising.iter().map(|n| n << 16 | 0x1234).collect();
    let high_alike: Vec<u32> = rising.iter().map(|n| 0xabcd << 16 | n << 3).collect();
    let bytes_alike: Vec<u32> = rising.iter().map(|n| (n & 31) << 8 | (n >> 5) << 24).collect();
    let spread: Vec<u32> = rising.iter().map(|n| n * 4_194_304).collect();
    let last: Vec<u32> = rising.iter().map(|n| LAST_NUMBER - 1 - n).collect();
    let bits: Vec<u32> = rising.iter().map(|n| n.reverse_bits()).collect();
    let saw: Vec<u32> = rising.iter().map(|n| n % 2 * 1_000_000 + n / 2).collect();
    let any: BTreeSet<u32> = (0..4 * count).map(|_| random.below(LAST_NUMBER)).collect();
    let any: Vec<u32> = any.into_iter().take(count as usize).collect();
    vec![
        ("shuffled", shuffled(rising.clone(), random)),
        ("low half alike, shuffled", shuffled(low_alike.clone(), random)),
        ("any", shuffled(any.clone(), random)),
        ("any, rising", any),
        ("rising", rising),
        ("falling", falling),
        ("low half alike", low_alike),
        ("high half alike", high_alike),
        ("two bytes alike", bytes_alike),
        ("spread", spread),
        ("the last numbers", last),
        ("bits reversed", bits),
        ("saw", saw),
    ]
}

/// Tickets of these numbers, spread over the places, in order; even rights are 0's, odd ones 1's.
fn state_of(numbers: &[u32]) -> TicketState {
    let last = numbers.len().max(2) - 1;
    let place = |n: usize| n * (PLACES - 1) / last;
    let one = |(n, number): (usize, &u32)| {
        let n32 = n as u32;
        (place(n), ticket(*number, n32 % 2, n32 % 8, 7, &[n32 % 2]))
    };
    let tickets: BTreeMap<usize, LiveTicket> = numbers.iter().enumerate().map(one).collect();
    assert_eq!(tickets.len(), numbers.len());
    TicketState { live: BTreeSet::from([0, 1]), next: LAST_NUMBER, tickets }
}

/// Every shape is in order; passes and removes find their ticket; a number twice, wherever, is 2.
#[test]
fn numbers_in_every_shape() {
    let mut random = Random::new(seed());
    for count in [1, 2, 3, 8, 9, 31, 32, 33, 64, 255, 256, 257, 700, 1022, 1023, 1024] {
        for (name, numbers) in shapes(count, &mut random) {
            assert_eq!(numbers.iter().collect::<BTreeSet<_>>().len(), count as usize, "{name}");
            let mut unit = TicketUnit::of(state_of(&numbers));
            for at in [0, count / 3, count / 2, count - 1] {
                let number = numbers[at as usize];
                unit.accept(&[pass(at % 2, 1 - at % 2, number)]);
            }
            let gone = numbers[random.below(count) as usize];
            let editor = unit
                .state
                .numbered(gone)
                .map(|ticket| ticket.item)
                .filter(|&item| unit.state.holds(item, item, 0));
            match editor {
                Some(by) => unit.accept(&[remove(by, gone)]),
                None => unit.refuse(17, &[remove(0, gone), remove(1, gone)]),
            }
            twice(name, &numbers, &mut random);
        }
    }
}

/// One number of the shape stands in the place of another: at the ends, beside each other, anywhere.
fn twice(name: &str, numbers: &[u32], random: &mut Random) {
    let count = numbers.len();
    if count < 2 {
        return;
    }
    let state = state_of(numbers);
    let places: Vec<usize> = state.tickets.keys().copied().collect();
    let image = ticket_image(&state);
    let mut pairs = vec![(0, count - 1), (count - 1, 0), (0, 1), (count - 2, count - 1)];
    for _ in 0..6 {
        let one = random.below(count as u32) as usize;
        pairs.push((one, (one + 1 + random.below(count as u32 - 1) as usize) % count));
    }
    for (from, to) in pairs {
        let mut image = image.clone();
        let mut changed = state.tickets[&places[to]].clone();
        changed.number = numbers[from];
        image[2 + 2 * places[to]..][..2].copy_from_slice(&ticket_words(&changed));
        let before = image.clone();
        assert_eq!(tickets::inspect(&image), 2, "{name}, {count}: {from} again at {to}");
        assert_eq!(tickets::pass(&mut image, 0, 1, numbers[from]), 2, "{name}, {count}");
        assert_eq!(tickets::remove(&mut image, 0, numbers[from]), 2, "{name}, {count}");
        assert_eq!(tickets::check(&image, 0, 0, 0), (2, 0), "{name}, {count}");
        assert!(image == before, "{name}, {count}: changed");
    }
}
