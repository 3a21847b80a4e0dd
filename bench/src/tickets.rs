//! The ticket unit: the states that it is measured on, each public call of it, engine against plain Rust, and both
//! through the same random calls before that.

use crate::api::*;
use crate::calls::{digest, run, Case, Line, Step};
use crate::engine::ENGINE;
use crate::plain::PLAIN;
use crate::state::{written, Seeded, KEY};

/// A ticket unit, its records, and the next person of its checks.
#[derive(Clone, PartialEq)]
pub struct TicketState {
    pub image: Vec<u64>,
    records: Vec<Ticket>,
    who: u32,
}

/// The last item that lives in the states; 63 can be created.
const LAST_ITEM: u32 = 62;

fn plain_generate(image: &mut [u64], on: u32, right: u32) -> u32 {
    let said = (PLAIN.tickets.generate)(image, 0, on, right);
    assert_eq!(said.number, DONE);
    said.value as u32
}

impl TicketState {
    fn of(image: Vec<u64>) -> TicketState {
        let mut state = TicketState { image, records: vec![Ticket::VACANT; TICKETS_MAX], who: 0 };
        assert_eq!((PLAIN.tickets.records)(&state.image, &mut state.records), DONE);
        state
    }

    /// Eight tickets: those of items 0 to 7.
    fn few() -> TicketState {
        let mut image = vec![0; TICKETS_WORDS];
        assert_eq!((PLAIN.tickets.fresh)(&mut image), DONE);
        (1..8).for_each(|on| assert_eq!((PLAIN.tickets.create)(&mut image, 0, on), DONE));
        TicketState::of(image)
    }

    /// Every item but 63 lives and the root has made all tickets, each passed on to two persons; numbers rise with the
    /// places.
    pub fn rising(tickets: u32) -> TicketState {
        let mut image = vec![0; TICKETS_WORDS];
        assert_eq!((PLAIN.tickets.fresh)(&mut image), DONE);
        (1..=LAST_ITEM).for_each(|on| assert_eq!((PLAIN.tickets.create)(&mut image, 0, on), DONE));
        let mut seeded = Seeded::new(41);
        for _ in LAST_ITEM + 1..tickets {
            make_ticket(&mut image, &mut seeded);
        }
        TicketState::of(image)
    }

    /// The same after 5,000 removes, each of any but the items' own tickets, and a new ticket in its place.
    pub fn shuffled(tickets: u32) -> TicketState {
        let mut image = TicketState::rising(tickets).image;
        let mut seeded = Seeded::new(43);
        for _ in 0..5_000 {
            let place = LAST_ITEM + 1 + seeded.below(tickets - LAST_ITEM - 1);
            let number = image[2 + 2 * place as usize] as u32;
            assert_eq!((PLAIN.tickets.remove)(&mut image, 0, number), DONE);
            make_ticket(&mut image, &mut seeded);
        }
        TicketState::of(image)
    }

    /// The numbers of the live tickets put in another order, or exchanged for others.
    fn with_numbers(self, change: fn(&mut Seeded, &mut [u32])) -> TicketState {
        let mut image = self.image;
        let mut numbers: Vec<u32> = image[2..].chunks_exact(2).filter(|r| r[1] != 0).map(|r| r[0] as u32).collect();
        change(&mut Seeded::new(47), &mut numbers);
        let live = image[2..].chunks_exact_mut(2).filter(|record| record[1] != 0);
        live.zip(&numbers).for_each(|(record, &number)| record[0] = record[0] >> 32 << 32 | u64::from(number));
        image[1] = image[1].max(u64::from(numbers.iter().max().copied().unwrap_or(0)) + 1);
        TicketState::of(image)
    }

    /// 1,024 numbers made for a sort that goes by their low halves: these are all the same, and the numbers fall.
    fn low_halves_alike() -> TicketState {
        TicketState::rising(TICKETS_MAX as u32).with_numbers(|_, numbers| {
            (0..).zip(numbers.iter_mut().rev()).for_each(|(n, number)| *number = n << 16 | 5)
        })
    }

    /// 1,024 numbers in the order in which their bits are reversed: every part of them seems to jump.
    fn bits_reversed() -> TicketState {
        TicketState::rising(TICKETS_MAX as u32).with_numbers(|_, numbers| {
            (0..).zip(numbers.iter_mut()).for_each(|(n, number)| *number = u32::reverse_bits(n))
        })
    }

    /// 1,024 tickets, the first number again at the last place; no image in order.
    fn twice() -> TicketState {
        let mut state = TicketState::shuffled(TICKETS_MAX as u32);
        let last = TICKETS_WORDS - 2;
        state.image[last] = state.image[last] >> 32 << 32 | state.image[2] & 0xffff_ffff;
        state
    }

    /// The number of the ticket at a place.
    fn number(&self, place: usize) -> u32 {
        self.image[2 + 2 * place] as u32
    }
}

/// A ticket of any item and right but edit, passed on to two persons.
fn make_ticket(image: &mut [u64], seeded: &mut Seeded) {
    let grant = seeded.grant(LAST_ITEM + 1);
    let number = plain_generate(image, grant.on, grant.right);
    for _ in 0..2 {
        assert_eq!((PLAIN.tickets.pass)(image, 0, seeded.below(LAST_ITEM + 1), number), DONE);
    }
}

type TicketCase = Case<Tickets, TicketState>;
type TicketStep = Step<Tickets, TicketState>;

fn check_step(u: &Tickets, s: &mut TicketState) -> u64 {
    let q = Question { who: s.who, on: KEY.0, right: KEY.1 };
    s.who = (s.who + 1) % 64;
    digest((u.check)(&s.image, q))
}

fn check_records_step(u: &Tickets, s: &mut TicketState) -> u64 {
    let q = Question { who: s.who, on: KEY.0, right: KEY.1 };
    s.who = (s.who + 1) % 64;
    digest((u.check_records)(&s.records, q))
}

fn pass_step(u: &Tickets, s: &mut TicketState, place: usize) -> u64 {
    let (to, number) = (s.who % 7, s.number(place));
    s.who = (s.who + 1) % 64;
    u64::from((u.pass)(&mut s.image, 0, to, number))
}

fn generate_remove(u: &Tickets, s: &mut TicketState) -> u64 {
    let said = (u.generate)(&mut s.image, 0, 1, 1);
    digest(said) + u64::from((u.remove)(&mut s.image, 0, said.value as u32))
}

fn create_delete(u: &Tickets, s: &mut TicketState) -> u64 {
    let created = (u.create)(&mut s.image, 0, 63);
    u64::from(created + 32 * (u.delete)(&mut s.image, 0, 63))
}

fn inspect_step(u: &Tickets, s: &mut TicketState) -> u64 {
    u64::from((u.inspect)(&s.image))
}

/// Eight tickets, and so many beside one free place or none: by a name, rising and shuffled.
fn states(tickets: u32) -> [(String, TicketState); 3] {
    let name = |shape: &str| format!("{} {shape} tickets", written(tickets));
    [
        ("8 tickets".to_string(), TicketState::few()),
        (name("rising"), TicketState::rising(tickets)),
        (name("shuffled"), TicketState::shuffled(tickets)),
    ]
}

fn case(name: &str, calls: u32, state: TicketState, step: TicketStep) -> TicketCase {
    Case { name: name.to_string(), calls, state, step }
}

/// The same step on eight tickets, and on so many rising and shuffled.
fn each(name: &str, calls: u32, tickets: u32, step: TicketStep) -> Vec<TicketCase> {
    let one = |(of, state): (String, TicketState)| case(&format!("{name}, {of}"), calls, state, step);
    states(tickets).into_iter().map(one).collect()
}

fn refused_cases() -> Vec<TicketCase> {
    let full = || TicketState::rising(TICKETS_MAX as u32);
    vec![
        case("create, refused with 6, 1,024 rising tickets", 1, full(), |u, s| {
            u64::from((u.create)(&mut s.image, 0, 7))
        }),
        case("generate, refused with 15, 1,024 rising tickets", 1, full(), |u, s| {
            digest((u.generate)(&mut s.image, 0, 1, 1))
        }),
        case("generate, refused with 17, 1,024 rising tickets", 1, full(), |u, s| {
            digest((u.generate)(&mut s.image, 1, 1, 1))
        }),
        case("remove, refused with 17, 1,024 rising tickets", 1, full(), |u, s| {
            u64::from((u.remove)(&mut s.image, 0, u32::MAX))
        }),
        case("delete, refused with 17, 1,024 rising tickets", 1, full(), |u, s| {
            u64::from((u.delete)(&mut s.image, 1, 7))
        }),
        case("check, refused with 3, 1,024 rising tickets", 1, full(), |u, s| {
            digest((u.check)(&s.image, Question { who: 64, on: 9, right: 1 }))
        }),
    ]
}

fn inspect_cases() -> Vec<TicketCase> {
    let mut cases = each("inspect", 1, TICKETS_MAX as u32, inspect_step);
    let alike = TicketState::low_halves_alike();
    let mixed = alike.clone().with_numbers(|seeded, numbers| {
        for at in (1..numbers.len()).rev() {
            numbers.swap(at, seeded.below(at as u32 + 1) as usize);
        }
    });
    cases.push(case("inspect, 1,024 tickets, low halves alike, falling", 1, alike, inspect_step));
    cases.push(case("inspect, 1,024 tickets, low halves alike, shuffled", 1, mixed, inspect_step));
    cases.push(case("inspect, 1,024 tickets, bits reversed", 1, TicketState::bits_reversed(), inspect_step));
    cases.push(case(
        "inspect, 1,024 shuffled tickets, a number twice, refused with 2",
        1,
        TicketState::twice(),
        inspect_step,
    ));
    cases
}

fn record_cases() -> Vec<TicketCase> {
    let full = || TicketState::shuffled(TICKETS_MAX as u32);
    vec![
        case("records, 1,024 shuffled tickets", 1, full(), |u, s| u64::from((u.records)(&s.image, &mut s.records))),
        case("records, 8 tickets", 1, TicketState::few(), |u, s| u64::from((u.records)(&s.image, &mut s.records))),
        case("check of records, 1,024 shuffled tickets", 1, full(), check_records_step),
        case("check of records, 8 tickets", 1, TicketState::few(), check_records_step),
        case("at", 1, full(), |u, s| {
            s.who = (s.who + 1) % 2048;
            (u.at)(&s.records, s.who as usize).holders
        }),
    ]
}

fn commands() -> Vec<TicketCase> {
    let fresh = case("fresh", 1, TicketState::few(), |u, s| u64::from((u.fresh)(&mut s.image)));
    let most = TICKETS_MAX as u32;
    [
        vec![fresh],
        each("create + delete", 2, most - 1, create_delete),
        each("generate + remove", 2, most - 1, generate_remove),
        each("pass of the sixth", 1, most, |u, s| pass_step(u, s, 5)),
        vec![
            case("pass of the last, 1,024 rising tickets", 1, TicketState::rising(most), |u, s| pass_step(u, s, 1023)),
            case("pass of the last, 1,024 shuffled tickets", 1, TicketState::shuffled(most), |u, s| {
                pass_step(u, s, 1023)
            }),
        ],
        refused_cases(),
    ]
    .into_iter()
    .flatten()
    .collect()
}

fn measured(cases: Vec<TicketCase>) -> Vec<Line> {
    cases.into_iter().map(|case| run(case, &ENGINE.tickets, &PLAIN.tickets)).collect()
}

pub fn calls() -> Vec<Line> {
    measured(commands())
}

pub fn looks() -> Vec<Line> {
    let checks = each("check", 1, TICKETS_MAX as u32, check_step);
    measured([checks, inspect_cases(), record_cases()].into_iter().flatten().collect())
}

/// Calls of the comparison that goes before the timing.
const CALLS: u32 = 20_000;

/// A command by its number with the arguments of any; the number beside it is a ticket's.
fn call(unit: &Tickets, image: &mut [u64], command: u32, g: Grant, ticket: u32) -> Said {
    let plain = |number| Said { number, value: 0 };
    match command {
        0 => plain((unit.create)(image, g.by, g.on)),
        1 => plain((unit.pass)(image, g.by, g.to, ticket)),
        2 => plain((unit.remove)(image, g.by, ticket)),
        3 => plain((unit.delete)(image, g.by, g.on)),
        _ => (unit.generate)(image, g.by, g.on, g.right),
    }
}

/// Mostly what lives, now and then a number beyond the limits.
fn item(seeded: &mut Seeded) -> u32 {
    match seeded.below(40) {
        0 => 64 + seeded.below(100),
        1..=12 => 0,
        _ => seeded.below(10),
    }
}

/// Engine and plain Rust through the same calls, with checks, records and torn images beside them; from a fresh unit, and
/// from full tables.
pub fn lockstep() {
    let mut seeded = Seeded::new(53);
    let full = TICKETS_MAX as u32;
    for start in [TicketState::few(), TicketState::rising(full - 3), TicketState::shuffled(full - 3)] {
        let (mut one, mut other) = (start.clone(), start);
        for _ in 0..CALLS / 3 {
            let command = [0, 1, 1, 2, 3, 4, 4, 4][seeded.below(8) as usize];
            let right = [seeded.below(3), seeded.below(9)][seeded.below(2) as usize];
            let g = Grant { by: item(&mut seeded), to: item(&mut seeded), on: item(&mut seeded), right, depth: 0 };
            let ticket = [seeded.below(one.image[1] as u32 + 1), one.number(seeded.below(1024) as usize)];
            let ticket = ticket[seeded.below(2) as usize];
            let answers = [(&ENGINE, &mut one), (&PLAIN, &mut other)]
                .map(|(api, s)| call(&api.tickets, &mut s.image, command, g, ticket));
            assert_eq!(answers[0], answers[1], "{command}, {g:?}, {ticket}");
            assert!(one.image == other.image, "the images differ after {command}, {g:?}, {ticket}");
            let q = Question { who: g.to, on: g.on, right };
            compare_looks(&one.image, q);
            let mut torn = one.image.clone();
            torn[seeded.below(TICKETS_WORDS as u32) as usize] ^= 1 << seeded.below(64);
            compare_looks(&torn, q);
        }
    }
}

/// Both judge the image alike, answer its check alike and write the same records, of which the check is that of the image.
fn compare_looks(image: &[u64], q: Question) {
    let looks = [&ENGINE.tickets, &PLAIN.tickets].map(|unit| {
        let mut records = vec![Ticket::VACANT; TICKETS_MAX];
        let number = (unit.records)(image, &mut records);
        let (said, of_records) = ((unit.check)(image, q), (unit.check_records)(&records, q));
        assert!(number != DONE || said == of_records, "{q:?}: {said:?}, of records {of_records:?}");
        ((unit.inspect)(image), number, said, (unit.at)(&records, q.who as usize), records)
    });
    assert!(looks[0] == looks[1], "the looks differ, {q:?}");
}
