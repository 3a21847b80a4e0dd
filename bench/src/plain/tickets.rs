//! The ticket unit: a live set, the next number, and records of two words.

use super::{in_range, lives_in, number, require, Answer};
use crate::api::*;

/// The number that no ticket gets.
const LAST: u64 = u32::MAX as u64;

fn number_of(word: u64) -> u32 {
    word as u32
}

/// The item and the right, side by side.
fn key_of(word: u64) -> u16 {
    (word >> 32) as u16
}

fn item_of(word: u64) -> u32 {
    (word >> 32) as u32 & 255
}

fn key(on: u32, right: u32) -> u16 {
    (on | right << 8) as u16
}

fn issuer_of(word: u64) -> u64 {
    word >> 48
}

fn word_of(number: u32, on: u32, right: u32, issuer: u32) -> u64 {
    u64::from(number) | u64::from(key(on, right)) << 32 | u64::from(issuer) << 48
}

/// A record's two words.
type Record = [u64; 2];

fn records(image: &[u64]) -> impl Iterator<Item = Record> + '_ {
    image[2..].chunks_exact(2).map(|record| [record[0], record[1]])
}

/// Of a record with a holder, all that is not about other records.
fn sound(live: u64, next: u64, [word, holders]: Record) -> bool {
    let (item, right) = (item_of(word), (word >> 40) as u8);
    u64::from(number_of(word)) < next
        && u32::from(right) <= RIGHT_MAX
        && issuer_of(word) <= u64::from(ITEM_MAX)
        && item <= ITEM_MAX
        && lives_in(live, item)
        && holders & !live == 0
}

/// Numbers 1 and 2.
fn order(image: &[u64]) -> Answer {
    require(image.len() == TICKETS_WORDS, WRONG_LENGTH)?;
    let (live, next) = (image[0], image[1]);
    require(live & 1 == 1 && next <= LAST, NOT_IN_ORDER)?;
    let (mut numbers, mut count) = ([0; TICKETS_MAX], 0);
    for record in records(image) {
        match record {
            [0, 0] => {}
            [word, holders] if holders != 0 && sound(live, next, record) => {
                numbers[count] = number_of(word);
                count += 1;
            }
            _ => return Err(NOT_IN_ORDER),
        }
    }
    let numbers = &mut numbers[..count];
    numbers.sort_unstable();
    require(numbers.windows(2).all(|pair| pair[0] != pair[1]), NOT_IN_ORDER)
}

fn holds(image: &[u64], who: u32, on: u32, right: u32) -> bool {
    let key = key(on, right);
    records(image).any(|[word, holders]| key_of(word) == key && lives_in(holders, who))
}

/// Where the live ticket with the number begins.
fn find(image: &[u64], number: u32) -> Option<usize> {
    let place = records(image).position(|[word, holders]| number_of(word) == number && holders != 0);
    place.map(|place| 2 + 2 * place)
}

/// Where a new ticket begins, after 15 and 16.
fn room(image: &[u64]) -> Result<usize, u32> {
    let place = records(image).position(|[_, holders]| holders == 0).ok_or(TICKETS_FULL)?;
    require(image[1] != LAST, NUMBERS_SPENT)?;
    Ok(2 + 2 * place)
}

fn issue(image: &mut [u64], at: usize, by: u32, on: u32, right: u32) -> u32 {
    let number = image[1] as u32;
    image[at] = word_of(number, on, right, by);
    image[at + 1] = 1 << by;
    image[1] += 1;
    number
}

fn lives(image: &[u64], item: u32) -> bool {
    lives_in(image[0], item)
}

fn try_create(image: &mut [u64], by: u32, on: u32) -> Answer {
    order(image)?;
    in_range(&[by, on], 0, 0)?;
    require(lives(image, by), BY_DEAD)?;
    require(!lives(image, on), ALREADY_LIVE)?;
    let at = room(image)?;
    image[0] |= 1 << on;
    issue(image, at, by, on, 0);
    Ok(())
}

fn try_generate(image: &mut [u64], by: u32, on: u32, right: u32) -> Result<u32, u32> {
    order(image)?;
    in_range(&[by, on], right, 0)?;
    require(lives(image, by), BY_DEAD)?;
    require(lives(image, on), NAMED_DEAD)?;
    require(holds(image, by, on, 0), NO_TICKET)?;
    let at = room(image)?;
    Ok(issue(image, at, by, on, right))
}

fn try_pass(image: &mut [u64], by: u32, to: u32, number: u32) -> Answer {
    order(image)?;
    in_range(&[by, to], 0, 0)?;
    require(lives(image, by), BY_DEAD)?;
    require(lives(image, to), NAMED_DEAD)?;
    let at = find(image, number).filter(|at| lives_in(image[at + 1], by)).ok_or(NO_TICKET)?;
    image[at + 1] |= 1 << to;
    Ok(())
}

fn try_remove(image: &mut [u64], by: u32, number: u32) -> Answer {
    order(image)?;
    in_range(&[by], 0, 0)?;
    require(lives(image, by), BY_DEAD)?;
    let at = find(image, number).filter(|&at| holds(image, by, item_of(image[at]), 0)).ok_or(NO_TICKET)?;
    image[at..at + 2].fill(0);
    Ok(())
}

fn try_delete(image: &mut [u64], by: u32, on: u32) -> Answer {
    order(image)?;
    in_range(&[by, on], 0, 0)?;
    require(lives(image, by), BY_DEAD)?;
    require(lives(image, on), NAMED_DEAD)?;
    require(on != 0, ROOT_ITEM)?;
    require(holds(image, by, on, 0), NO_TICKET)?;
    image[0] &= !(1 << on);
    for record in image[2..].chunks_exact_mut(2) {
        record[1] &= !(1 << on);
        if record[1] == 0 || item_of(record[0]) == on {
            record.fill(0);
        }
    }
    Ok(())
}

fn said(answer: Result<u64, u32>) -> Said {
    match answer {
        Ok(value) => Said { number: DONE, value },
        Err(number) => Said { number, value: 0 },
    }
}

fn check(image: &[u64], q: Question) -> Said {
    let answer = order(image).and_then(|()| in_range(&[q.who, q.on], q.right, 0));
    said(answer.map(|()| u64::from(holds(image, q.who, q.on, q.right))))
}

fn write_records(image: &[u64], tickets: &mut [Ticket]) -> Answer {
    require(image.len() == TICKETS_WORDS && tickets.len() == TICKETS_MAX, WRONG_LENGTH)?;
    order(image)?;
    for (ticket, [word, holders]) in tickets.iter_mut().zip(records(image)) {
        *ticket = Ticket {
            number: number_of(word),
            item: (word >> 32) as u8,
            right: (word >> 40) as u8,
            issuer: issuer_of(word) as u16,
            holders,
        };
    }
    Ok(())
}

fn check_records(tickets: &[Ticket], q: Question) -> Said {
    let answer = require(tickets.len() == TICKETS_MAX, WRONG_LENGTH);
    let answer = answer.and_then(|()| in_range(&[q.who, q.on], q.right, 0));
    let opens = |t: &Ticket| lives_in(t.holders, q.who) && u32::from(t.item) == q.on && u32::from(t.right) == q.right;
    said(answer.map(|()| u64::from(tickets.iter().any(opens))))
}

fn fresh(image: &mut [u64]) -> u32 {
    if image.len() != TICKETS_WORDS {
        return WRONG_LENGTH;
    }
    image.fill(0);
    (image[0], image[1], image[3]) = (1, 1, 1);
    DONE
}

pub const UNIT: Tickets = Tickets {
    fresh,
    create: |image, by, on| number(try_create(image, by, on)),
    generate: |image, by, on, right| said(try_generate(image, by, on, right).map(u64::from)),
    pass: |image, by, to, ticket| number(try_pass(image, by, to, ticket)),
    remove: |image, by, ticket| number(try_remove(image, by, ticket)),
    delete: |image, by, on| number(try_delete(image, by, on)),
    check,
    inspect: |image| number(order(image)),
    records: |image, tickets| number(write_records(image, tickets)),
    at: |tickets, place| tickets.get(place).copied().unwrap_or_default(),
    check_records,
};
