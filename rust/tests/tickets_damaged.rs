//! Every call of the ticket unit on damaged images: the number, and what each lent word holds after.
//! Every buffer lies at a guard page, in turn before it and after it.

mod engine;
mod generator;
mod guarded;
mod model;
mod ticket_generator;

use std::collections::BTreeMap;

use engine::give_tickets;
use generator::{seed, Random};
use guarded::{Guarded, Side, SIDES};
use model::tickets::{LAST_NUMBER, PLACES};
use model::{
    record_of, ticket_image, ticket_state, ticket_words, LiveTicket, TicketCommand, TicketState,
};
use rights::lent::tickets;
use rights::Ticket;
use ticket_generator::{TicketBias, TicketGenerator, TICKET_BIASES};

/// The record of the crate for one of the papers'; a vacant one where there is none.
fn record(ticket: Option<&LiveTicket>) -> Ticket {
    let Some(ticket) = ticket else {
        return Ticket { number: 0, item: 0, right: 0, issuer: 0, holders: 0 };
    };
    Ticket {
        number: ticket.number,
        item: ticket.item as u8,
        right: ticket.right as u8,
        issuer: ticket.issuer as u16,
        holders: ticket_words(ticket)[1],
    }
}

/// What a buffer for records holds before they are written.
const HELD: Ticket = Ticket { number: 7, item: 7, right: 7, issuer: 7, holders: 7 };

/// A state, the commands and questions that are tried on images of it, and where those lie.
struct Trial {
    generator: TicketGenerator,
    state: TicketState,
    side: Side,
}

impl Trial {
    fn new(seed: u64, bias: TicketBias, commands: u32) -> Self {
        let mut generator = TicketGenerator::new(seed, bias);
        let mut state = generator.start();
        for _ in 0..commands {
            let command = generator.command(&state);
            state.give(command);
        }
        Self { generator, state, side: Side::Front }
    }

    /// From now on the guard pages are on the other side.
    fn turned(&mut self) -> &mut Self {
        self.side = if self.side == Side::Front { Side::Back } else { Side::Front };
        self
    }

    /// Every call on one image; the number that it is refused with.
    fn all(&mut self, image: &[u64]) -> u32 {
        let said = ticket_state(image);
        let refused = said.as_ref().err().copied();
        for kind in 0..5 {
            let command = self.generator.of_kind(kind, &self.state);
            self.command(image, &said, command);
        }
        // These are refused with another number, were the image not judged first.
        self.command(image, &said, TicketCommand::Generate { by: 64, on: 0, right: 0 });
        let (who, on, right) = self.generator.question(&self.state);
        let mut lent = Guarded::new(image, self.side);
        let answer = match &said {
            Err(number) => (*number, 0),
            Ok(state) => state.check((who, on, right)),
        };
        assert_eq!(tickets::check(lent.slice(), who, on, right), answer, "check");
        let beyond = (refused.unwrap_or(3), 0);
        assert_eq!(tickets::check(lent.slice(), who, 64, right), beyond, "check beyond");
        assert_eq!(tickets::inspect(lent.slice()), refused.unwrap_or(0), "inspect");
        lent.assert_holds(image, "looks");
        self.records(image, &said, PLACES);
        let other = self.generator.random.pick(&[0, 1, 1023, 1025, 2048]);
        self.records(image, &said, other);
        self.fresh(image);
        refused.unwrap_or(0)
    }

    fn command(&self, image: &[u64], said: &Result<TicketState, u32>, command: TicketCommand) {
        let mut lent = Guarded::new(image, self.side);
        let given = give_tickets(lent.slice(), command);
        match said {
            Err(number) => {
                assert_eq!(given, (*number, 0), "{command:?}");
                lent.assert_holds(image, "a refused command");
            }
            Ok(state) => {
                let mut state = state.clone();
                assert_eq!(given, state.give(command), "{command:?}");
                lent.assert_holds(&ticket_image(&state), "a command");
            }
        }
    }

    /// The records of an image, into a buffer of some length.
    fn records(&self, image: &[u64], said: &Result<TicketState, u32>, places: usize) {
        let (mut from, mut into) =
            (Guarded::new(image, self.side), Guarded::new(&vec![HELD; places], self.side));
        let number = tickets::records(from.slice(), into.slice());
        from.assert_holds(image, "records");
        match said {
            Ok(state) if places == PLACES => {
                let due: Vec<Ticket> =
                    (0..PLACES).map(|place| record(state.tickets.get(&place))).collect();
                assert_eq!(number, 0, "records");
                into.assert_holds(&due, "records");
                let question = self
                    .state
                    .tickets
                    .values()
                    .next()
                    .map_or((0, 0, 0), |ticket| (ticket.issuer, ticket.item, ticket.right));
                let (who, on, right) = question;
                let asked = tickets::check_records(into.slice(), who, on, right);
                assert_eq!(asked, state.check(question), "check of records");
                into.assert_holds(&due, "a check of records");
            }
            _ => {
                let wrong = image.len() != 2050 || places != PLACES;
                assert_eq!(number, if wrong { 1 } else { 2 }, "records");
                into.assert_holds(&vec![HELD; places], "refused records");
                if places != PLACES {
                    let asked = tickets::check_records(into.slice(), 0, 7, 7);
                    assert_eq!(asked, (1, 0), "check of {places} records");
                }
                let past = tickets::at(into.slice(), places);
                assert_eq!(past, Ticket { number: 0, item: 0, right: 0, issuer: 0, holders: 0 });
                assert!(places == 0 || tickets::at(into.slice(), places - 1) == HELD);
                into.assert_holds(&vec![HELD; places], "looks at records");
            }
        }
    }

    fn fresh(&self, image: &[u64]) {
        let mut lent = Guarded::new(image, self.side);
        let right = image.len() == 2050;
        assert_eq!(tickets::fresh(lent.slice()), u32::from(!right), "fresh");
        let fresh = ticket_image(&TicketState::fresh());
        lent.assert_holds(if right { &fresh } else { image }, "fresh");
    }
}

/// A state with 40 tickets at any places, of several holders each, and with dead items.
fn some_state() -> Trial {
    let mut trial = Trial::new(seed(), TICKET_BIASES[3], 0);
    trial.state = trial.generator.state(40, 70_000, 70);
    let state = &trial.state;
    assert!(state.live.len() > 2 && state.tickets.values().any(|ticket| ticket.holders.len() > 1));
    trial
}

/// Wrong lengths, at a guard page on either side.
#[test]
fn lengths() {
    let mut trial = some_state();
    let image = ticket_image(&trial.state);
    for side in SIDES {
        trial.side = side;
        for length in [0, 1, 2, 3, 4, 513, 1025, 2048, 2049, 2050, 2051, 2052, 4100] {
            let mut resized = image.clone();
            resized.resize(length, 0);
            assert_eq!(trial.all(&resized), u32::from(length != 2050), "{length}");
            // Also where nothing in it is in order.
            assert_eq!(trial.all(&vec![0; length]), if length == 2050 { 2 } else { 1 });
        }
    }
}

/// The words of a record, by its fields.
fn words(number: u64, item: u64, right: u64, issuer: u64, holders: u64) -> [u64; 2] {
    [number + (item << 32) + (right << 40) + (issuer << 48), holders]
}

/// Each clause of in order alone, at its limit and one step beyond: of an image that is in order but
/// for it. Items 0, 1, 2 and 63 live, 40 is dead; the next is 100,000; tickets live at places 0, 5
/// and 1,023.
#[test]
fn each_clause() {
    let live = 1 << 0 | 1 << 1 | 1 << 2 | 1 << 63;
    let mut base = vec![0; 2050];
    base[..2].copy_from_slice(&[live, 100_000]);
    let put = |image: &mut [u64], place: usize, record: [u64; 2]| {
        image[2 + 2 * place..][..2].copy_from_slice(&record);
    };
    put(&mut base, 0, words(0, 0, 0, 0, 1));
    put(&mut base, 5, words(70_000, 1, 7, 63, 1 << 1 | 1 << 63));
    put(&mut base, 1023, words(4_464, 63, 3, 2, 1 << 2));
    let mut trial = some_state();
    let mut judge = |what: &str, number: u32, change: &dyn Fn(&mut Vec<u64>)| {
        for side in SIDES {
            trial.side = side;
            let mut image = base.clone();
            change(&mut image);
            assert_eq!(trial.all(&image), number, "{what}");
        }
    };
    judge("as it is", 0, &|_| {});
    judge("item 0 dead and not named", 2, &|image| {
        image[0] ^= 1;
        put(image, 0, [0, 0]);
    });
    judge("the next is the last", 0, &|image| image[1] = 4_294_967_295);
    judge("the next is beyond", 2, &|image| image[1] = 4_294_967_296);
    judge("the next is far beyond", 2, &|image| image[1] = 1 << 63 | 100_000);
    judge("the next is one above the greatest", 0, &|image| image[1] = 70_001);
    judge("the next is the greatest", 2, &|image| image[1] = 70_000);
    judge("the next is 0", 2, &|image| image[1] = 0);
    // Fields of the record at places that are free, in use and the last.
    for place in [0, 5, 9, 600, 1023] {
        let mut all = |what: &str, number: u32, record: [u64; 2]| {
            judge(&format!("{what} at {place}"), number, &|image| put(image, place, record));
        };
        all("vacant", 0, [0, 0]);
        all("the greatest number", 0, words(99_999, 1, 7, 63, 1));
        all("the next number", 2, words(100_000, 1, 7, 63, 1));
        all("a number beyond", 2, words(4_294_967_295, 1, 7, 63, 1));
        all("right 7", 0, words(80_000, 1, 7, 0, 1));
        all("right 8", 2, words(80_000, 1, 8, 0, 1));
        all("right 16", 2, words(80_000, 1, 16, 0, 1));
        all("right 255", 2, words(80_000, 1, 255, 0, 1));
        all("issuer 63", 0, words(80_000, 1, 0, 63, 1));
        all("issuer 40, dead", 0, words(80_000, 1, 0, 40, 1));
        all("issuer 64", 2, words(80_000, 1, 0, 64, 1));
        all("issuer 256", 2, words(80_000, 1, 0, 256, 1));
        all("issuer 65,535", 2, words(80_000, 1, 0, 65_535, 1));
        all("item 63", 0, words(80_000, 63, 0, 0, 1));
        all("item 40, dead", 2, words(80_000, 40, 0, 0, 1));
        all("item 64", 2, words(80_000, 64, 0, 0, 1));
        all("item 128", 2, words(80_000, 128, 0, 0, 1));
        all("item 255", 2, words(80_000, 255, 0, 0, 1));
        all("every live holder", 0, words(80_000, 1, 0, 0, live));
        all("holder 40, dead", 2, words(80_000, 1, 0, 0, 1 << 40));
        all("a dead holder among others", 2, words(80_000, 1, 0, 0, live | 1 << 62));
        all("every holder", 2, words(80_000, 1, 0, 0, u64::MAX));
        all("no holder, a number", 2, words(1, 0, 0, 0, 0));
        all("no holder, the greatest number", 2, words(4_294_967_295, 0, 0, 0, 0));
        all("no holder, an item", 2, words(0, 1, 0, 0, 0));
        all("no holder, item 128", 2, words(0, 128, 0, 0, 0));
        all("no holder, a right", 2, words(0, 0, 1, 0, 0));
        all("no holder, right 128", 2, words(0, 0, 128, 0, 0));
        all("no holder, an issuer", 2, words(0, 0, 0, 1, 0));
        all("no holder, issuer 32,768", 2, words(0, 0, 0, 32_768, 0));
        all("no holder, all but it", 2, words(9, 1, 1, 1, 0));
    }
    // Numbers twice: beside each other and far apart, of the same and of other items.
    for (one, other) in [(0, 1023), (0, 1), (1022, 1023), (0, 5), (5, 1023), (5, 6), (300, 800)] {
        for (number, other_number, refused) in
            [(4_000, 4_000, 2), (4_000, 4_000 + 65_536, 0), (4_000, 4_001, 0), (0, 0, 2)]
        {
            judge(
                &format!("{number} and {other_number} at {one} and {other}"),
                refused,
                &|image| {
                    // The others make way, so that nothing else has the number.
                    [0, 5, 1023].into_iter().for_each(|place| put(image, place, [0, 0]));
                    put(image, one, words(number, 1, 7, 63, 1));
                    put(image, other, words(other_number, 0, 0, 0, 1 << 63));
                },
            );
        }
    }
    // All 0 but for the live set and the next: no ticket lives, and that is in order.
    judge("no ticket", 0, &|image| image[2..].fill(0));
    judge("no ticket, the next 0", 0, &|image| image[1..].fill(0));
    judge("item 0 alone", 0, &|image| {
        image.fill(0);
        image[0] = 1;
    });
}

/// "'in order' is no checksum": one bit of a record that is all 0 makes it a ticket of right 0 on item
/// 0, which is ticket 0 again where that has gone. No order can tell it from one that was passed on.
#[test]
fn one_bit_makes_a_ticket() {
    let mut state = TicketState::fresh();
    state.give(TicketCommand::Create { by: 0, on: 5 });
    let mut image = ticket_image(&state);
    image[2 + 2 * 600 + 1] ^= 1 << 5;
    assert_eq!(tickets::inspect(&image), 2);
    state.give(TicketCommand::Remove { by: 0, number: 0 });
    let mut image = ticket_image(&state);
    assert_eq!(tickets::check(&image, 5, 0, 0), (0, 0));
    image[2 + 2 * 600 + 1] ^= 1 << 5;
    assert_eq!(tickets::inspect(&image), 0);
    assert_eq!(tickets::check(&image, 5, 0, 0), (0, 1));
}

/// A damage: what it is called and what it does to the image of a state.
type Damage = (&'static str, fn(&mut Random, &TicketState, &mut [u64]));

/// The words of a ticket in use, of a free place where there is none.
fn some_place(random: &mut Random, state: &TicketState) -> usize {
    let places: Vec<usize> = state.tickets.keys().copied().collect();
    2 + 2 * if places.is_empty() { 0 } else { random.pick(&places) }
}

fn dead(random: &mut Random, state: &TicketState) -> u32 {
    let dead: Vec<u32> = (0..64).filter(|&item| !state.lives(item)).collect();
    if dead.is_empty() {
        64
    } else {
        random.pick(&dead)
    }
}

/// The record at a place with another field.
fn edit(image: &mut [u64], at: usize, change: impl FnOnce(&mut LiveTicket)) {
    let mut ticket = record_of(&image[at..at + 2]);
    change(&mut ticket);
    image[at..at + 2].copy_from_slice(&ticket_words(&ticket));
}

const DAMAGES: [Damage; 15] = [
    ("one bit", |random, _, image| {
        let at = random.below(2050) as usize;
        image[at] ^= 1 << random.below(64);
    }),
    ("one bit of a ticket", |random, state, image| {
        let at = some_place(random, state) + random.below(2) as usize;
        image[at] ^= 1 << random.below(64);
    }),
    ("several bits", |random, state, image| {
        for _ in 0..2 + random.below(4) {
            let (any, used) = (random.below(2050) as usize, some_place(random, state));
            let at = random.pick(&[any, used]);
            image[at] ^= 1 << random.below(64);
        }
    }),
    ("live set", |random, _, image| image[0] ^= 1 << random.below(64)),
    ("root item dead", |_, _, image| image[0] &= !1),
    ("next", |random, state, image| {
        let near = state.tickets.values().map(|ticket| ticket.number).max().unwrap_or(0);
        let (near, last, bit) = (u64::from(near), u64::from(LAST_NUMBER), random.below(64));
        image[1] = random.pick(&[0, near, near + 1, last, last + 1, image[1] ^ 1 << bit]);
    }),
    ("number of another", |random, state, image| {
        let (one, other) = (some_place(random, state), some_place(random, state));
        let number = record_of(&image[other..other + 2]).number;
        edit(image, one, |ticket| ticket.number = number);
    }),
    ("number of another in its low half", |random, state, image| {
        let (one, other) = (some_place(random, state), some_place(random, state));
        let number = record_of(&image[other..other + 2]).number;
        edit(image, one, |ticket| ticket.number = ticket.number >> 16 << 16 | number & 0xffff);
    }),
    ("item dead", |random, state, image| {
        let (at, dead) = (some_place(random, state), dead(random, state));
        edit(image, at, |ticket| ticket.item = dead);
    }),
    ("holder dead", |random, state, image| {
        let (at, dead) = (some_place(random, state), dead(random, state));
        if dead < 64 {
            image[at + 1] |= 1 << dead;
        }
    }),
    ("right", |random, state, image| {
        let (at, right) = (some_place(random, state), random.pick(&[0, 7, 8, 9, 15, 16, 255]));
        edit(image, at, |ticket| ticket.right = right);
    }),
    ("issuer", |random, state, image| {
        let (at, issuer) = (some_place(random, state), random.pick(&[0, 63, 64, 127, 256, 65_535]));
        edit(image, at, |ticket| ticket.issuer = issuer);
    }),
    ("no holder", |random, state, image| image[some_place(random, state) + 1] = 0),
    ("a holder of nothing", |random, state, image| {
        let free = (0..PLACES).filter(|place| !state.tickets.contains_key(place));
        let free: Vec<usize> = free.collect();
        if !free.is_empty() {
            image[3 + 2 * random.pick(&free)] = 1 << random.below(64);
        }
    }),
    ("two places exchanged", |random, state, image| {
        let (one, other) = (some_place(random, state), 2 + 2 * random.below(1024) as usize);
        image.swap(one, other);
        image.swap(one + 1, other + 1);
    }),
];

/// Damaged images of the states that lists of every bias reach, until there are enough.
fn damage_images(images: u64) {
    let mut counts: BTreeMap<&str, [u64; 3]> = BTreeMap::new();
    let mut made = 0;
    for (round, bias) in (0..).zip(TICKET_BIASES.iter().cycle()) {
        if made >= images {
            break;
        }
        let mut trial = Trial::new(seed() + round, *bias, 10 + 13 * (round as u32 % 19));
        for (name, apply) in DAMAGES {
            let mut image = ticket_image(&trial.state);
            let state = trial.state.clone();
            apply(&mut trial.generator.random, &state, &mut image);
            let number = trial.turned().all(&image);
            counts.entry(name).or_default()[number as usize] += 1;
            made += 1;
        }
    }
    println!("damaged ticket images: {made}, seed {}: {counts:?}", seed());
    for (name, [in_order, wrong_length, not_in_order]) in counts {
        // Both ways, but for what is always or never in order.
        let (may, must) = match name {
            "two places exchanged" => (in_order > 0, not_in_order == 0),
            "root item dead" | "item dead" | "holder dead" => (in_order == 0, not_in_order > 0),
            _ => (in_order > 0, not_in_order > 0),
        };
        assert!(may && must && wrong_length == 0, "{name}");
    }
}

#[test]
fn short() {
    damage_images(3_000);
}

#[test]
#[ignore = "takes minutes"]
fn long() {
    damage_images(200_000);
}

/// Single bits of the image of one state, every call on each: the numbers that they are refused with.
/// Of the records without a ticket every so many.
fn single_bits(each: usize) -> [u64; 3] {
    let mut trial = some_state();
    let mut image = ticket_image(&trial.state);
    let mut numbers = [0; 3];
    for word in 0..2050 {
        let in_use = word < 2 || trial.state.tickets.contains_key(&((word - 2) / 2));
        for bit in (0..64).filter(|bit| in_use || (64 * word + bit) % each == 0) {
            image[word] ^= 1 << bit;
            numbers[trial.turned().all(&image) as usize] += 1;
            image[word] ^= 1 << bit;
        }
    }
    println!("single bits of a ticket image: {numbers:?}");
    assert!(numbers[0] > 0 && numbers[1] == 0 && numbers[2] > 0);
    numbers
}

#[test]
fn some_bits() {
    single_bits(61);
}

#[test]
#[ignore = "takes minutes"]
fn long_every_bit() {
    assert_eq!(single_bits(1).iter().sum::<u64>(), 2050 * 64);
}

/// Images of random words, the model's own judgement beside them: of all numbers, of fields near
/// their limits, and of few of those.
#[test]
fn garbage() {
    let mut trial = some_state();
    let mut counts = [0; 3];
    for round in 0..4_000 {
        let random = &mut trial.generator.random;
        let mut image = vec![0; 2050];
        let near = |random: &mut Random, limit: u64| random.below(limit as u32 + 2) as u64;
        let loose = round % 4 == 0;
        image[0] = random.next() | random.next() | if loose { 0 } else { 1 };
        image[1] = random.pick(&[3, 40, 70_000, 4_294_967_295, 4_294_967_296]);
        let tickets = random.pick(&[0, 1, 2, 3, 9, 60, 1024]);
        for n in 0..tickets {
            let place = if tickets == 1024 { n } else { random.below(1024) } as usize;
            let live = image[0];
            let record = if loose && random.percent(10) {
                [random.next(), random.next() & live]
            } else {
                let item = loop {
                    let item = random.below(64);
                    if live >> item & 1 == 1 || random.percent(1) || live == 0 {
                        break u64::from(item);
                    }
                };
                let number = u64::from(random.below(image[1].min(1 << 31) as u32 + 1));
                let right =
                    if random.percent(2) { near(random, 7) } else { random.below(8).into() };
                let issuer =
                    if random.percent(2) { near(random, 63) } else { random.below(64).into() };
                let holders = if random.percent(98) { random.next() & live } else { random.next() };
                words(number, item, right, issuer, holders)
            };
            image[2 + 2 * place..][..2].copy_from_slice(&record);
        }
        let number = if round % 8 == 0 {
            trial.turned().all(&image)
        } else {
            let due = ticket_state(&image).map_or_else(|number| number, |_| 0);
            assert_eq!(tickets::inspect(&image), due);
            due
        };
        counts[number as usize] += 1;
    }
    println!("random ticket images: {counts:?}");
    assert!(counts[0] > 500 && counts[2] > 500, "{counts:?}");
}
