//! The engine and the plain implementation through the same random calls, before anything is timed.

use crate::api::*;
use crate::engine::ENGINE;
use crate::plain::{loans, PLAIN, SETTLING};
use crate::state::{fewest, fresh_flat, is_chain, ChainState, Pair, Seeded, KEY};

const CALLS: u32 = 20_000;

/// States with loans among few persons.
const CROWDS: u32 = 2_000;

/// Create, delete, allow, withdraw, recall, lend, allow_set and drop by number; those that build come more often than
/// those that end.
const DRAWN: [u32; 19] = [0, 0, 0, 1, 2, 2, 2, 2, 3, 4, 5, 5, 5, 5, 5, 5, 6, 6, 7];

/// Few items, so that commands meet; now and then a number beyond the limits.
fn number(seeded: &mut Seeded, limit: u32) -> u32 {
    match seeded.below(40) {
        0 => limit + seeded.below(100),
        _ => seeded.below(limit),
    }
}

fn arguments(seeded: &mut Seeded) -> Grant {
    let mut item = || [0, number(seeded, 64), seeded.below(8), seeded.below(8)][seeded.below(4) as usize];
    let (by, to, on) = (item(), item(), item());
    Grant { by, to, on, right: number(seeded, 8), depth: number(seeded, 8) }
}

/// A withdraw or a drop by the root, of the lender, item and right of a loan that stands.
fn aimed(seeded: &mut Seeded, table: &[u32]) -> Grant {
    let loans = loans::in_use(table);
    let loan = loans[seeded.below(loans.len() as u32) as usize];
    let (to, on, right) = (loans::lender(loan), loans::item(loan), loans::right(loan));
    Grant { by: 0, to, on, right, depth: seeded.below(8) }
}

/// The arguments of a call; every other withdraw and drop is aimed at a loan.
fn arguments_of(seeded: &mut Seeded, command: u32, table: &[u32]) -> Grant {
    match command {
        3 | 7 if loans::count(table) > 0 && seeded.below(2) == 0 => aimed(seeded, table),
        _ => arguments(seeded),
    }
}

/// Some of the items that live; now and then any item, or none.
fn set(seeded: &mut Seeded, live: u64) -> u64 {
    let any = u64::from(seeded.below(u32::MAX)) << 32 | u64::from(seeded.below(u32::MAX));
    match seeded.below(16) {
        0 => 0,
        1 => any,
        2 => live | 1 << seeded.below(64),
        3 => live,
        _ => live & any,
    }
}

/// A command by its number, with all the arguments that any command has.
#[derive(Clone, Copy, Debug)]
struct Call {
    command: u32,
    g: Grant,
    set: u64,
}

/// One command to a unit of one image; lend, recall and drop are passed over.
fn flat_call<C>(unit: &Flat<C>, image: &mut [C], Call { command, g, set }: Call) -> u32 {
    match command {
        0 => (unit.create)(image, g.by, g.on),
        1 => (unit.delete)(image, g.by, g.on),
        2 => (unit.allow)(image, g),
        3 => (unit.withdraw)(image, g),
        6 => (unit.allow_set)(image, set, g),
        _ => DONE,
    }
}

fn chain_call(unit: &Chains, s: &mut ChainState, Call { command, g, set }: Call) -> u32 {
    let (grants, loans) = (&mut s.grants[..], &mut s.loans[..]);
    match command {
        0 => (unit.create)(grants, loans, g.by, g.on),
        1 => (unit.delete)(grants, loans, g.by, g.on),
        2 => (unit.allow)(grants, loans, g),
        3 => (unit.withdraw)(grants, loans, g),
        4 => (unit.recall)(grants, loans, g),
        6 => (unit.allow_set)(grants, loans, set, g),
        7 => (unit.drop)(grants, loans, g),
        _ => (unit.lend)(grants, loans, g),
    }
}

/// What the check says; the persons must be a chain that bears it out.
fn found_in(unit: &Chains, s: &ChainState, q: Question) -> Found {
    let mut chain = [0; CHAIN_PERSONS];
    let found = (unit.check)(&s.grants, &s.loans, q, &mut chain);
    let held = found.number != DONE || is_chain(&s.grants, &s.loans, q, &chain, found);
    assert!(held, "{q:?}: {found:?} {chain:?}");
    found
}

/// For every person: engine and plain Rust say the greatest depth and the fewest persons, and write such a chain. How
/// many persons, for each.
pub fn chains_hold(state: &ChainState) -> [u32; 64] {
    std::array::from_fn(|who| {
        let q = Question { who: who as u32, on: KEY.0, right: KEY.1 };
        let (depth, persons) = fewest(&state.grants, &state.loans, q);
        for unit in [&ENGINE.chains, &PLAIN.chains] {
            assert_eq!(found_in(unit, state, q), Found { number: DONE, depth, persons }, "{q:?}");
        }
        persons
    })
}

/// Whether settling answers some check of the key with more persons than the fewest; it must say the same depth.
fn settled_longer(state: &ChainState) -> bool {
    let longer = |who| {
        let q = Question { who, on: KEY.0, right: KEY.1 };
        let (depth, persons) = fewest(&state.grants, &state.loans, q);
        let found = found_in(&SETTLING, state, q);
        assert_eq!((found.number, found.depth), (DONE, depth), "{q:?}");
        found.persons > persons
    };
    (0..64).filter(|&who| longer(who)).count() > 0
}

/// A withdraw or drop aimed at a loan, of a person with no grant to three there: engine and plain Rust must leave the
/// same. How many loans it ended.
fn ended_alike(state: &ChainState, seeded: &mut Seeded) -> usize {
    let g = aimed(seeded, &state.loans);
    let mut one = state.clone();
    for _ in 0..seeded.below(4) {
        assert_eq!((PLAIN.chains.allow)(&mut one.grants, &mut one.loans, Grant { depth: seeded.below(8), ..g }), DONE);
    }
    let mut other = one.clone();
    let call = Call { command: [3, 7][seeded.below(2) as usize], g, set: 0 };
    let numbers = [(&ENGINE, &mut one), (&PLAIN, &mut other)].map(|(api, s)| chain_call(&api.chains, s, call));
    assert_eq!(numbers, [DONE, DONE], "{call:?}");
    assert!(one == other, "the images differ after {call:?}");
    loans::count(&state.loans) - loans::count(&one.loans)
}

/// A sweep, mostly by an item that lives: engine and plain Rust must answer and leave the same, and a check of the key
/// must stay as it was. What it said.
fn swept_alike(state: &ChainState, seeded: &mut Seeded) -> Said {
    let by = [0, number(seeded, 64), seeded.below(KEY.0)][seeded.below(3) as usize];
    let (mut one, mut other) = (state.clone(), state.clone());
    let said = (ENGINE.chains.sweep)(&mut one.grants, &mut one.loans, by);
    assert_eq!(said, (PLAIN.chains.sweep)(&mut other.grants, &mut other.loans, by), "sweep by {by}");
    assert!(one == other, "the images differ after a sweep by {by}");
    assert_eq!(loans::count(&state.loans), loans::count(&one.loans) + said.value as usize, "sweep by {by}");
    assert_eq!(chains_hold(&one), chains_hold(state), "checks after a sweep by {by}");
    said
}

/// Loans among few persons, so that chains of equal depth and of every length meet.
fn crowded() {
    let mut seeded = Seeded::new(33);
    let (mut longer, mut lengths) = (0, [0; CHAIN_PERSONS + 1]);
    let mut ended = [0; 4];
    let (mut swept, mut refused) = ([0; 4], [0; 5]);
    for _ in 0..CROWDS {
        let state = ChainState::crowd(&mut seeded);
        chains_hold(&state);
        longer += u32::from(settled_longer(&state));
        let dated = state.dated(seeded.below(8));
        chains_hold(&dated).iter().for_each(|&persons| lengths[persons as usize] += 1);
        ended[ended_alike(&dated, &mut seeded).min(3)] += 1;
        let said = swept_alike(&dated, &mut seeded);
        swept[said.value.min(3) as usize] += 1;
        refused[said.number as usize] += 1;
    }
    assert!(swept.iter().all(|&count| count > 0), "sweeps by loans ended: {swept:?}");
    assert!([DONE, OUT_OF_RANGE, BY_DEAD].iter().all(|&n| refused[n as usize] > 0), "sweeps by number: {refused:?}");
    assert!(ended.iter().all(|&count| count > 0), "withdraws and drops by loans ended: {ended:?}");
    assert!(longer > 0, "settling always had the fewest persons");
    assert!(lengths.iter().all(|&count| count > 0), "chains by persons: {lengths:?}");
}

#[derive(Clone, PartialEq)]
struct Units {
    flat: Pair,
    chains: ChainState,
}

impl Units {
    fn fresh(api: &Api) -> Units {
        let lists = fresh_flat(&api.lists, LISTS_WORDS);
        let mut chains = ChainState::fresh();
        assert_eq!((api.chains.fresh)(&mut chains.grants, &mut chains.loans), DONE);
        Units { flat: Pair { lists, rows: fresh_flat(&api.rows, ROWS_BYTES) }, chains }
    }

    fn command(&mut self, api: &Api, call: Call) -> [u32; 3] {
        let list = flat_call(&api.lists, &mut self.flat.lists, call);
        let row = flat_call(&api.rows, &mut self.flat.rows, call);
        [list, row, chain_call(&api.chains, &mut self.chains, call)]
    }

    /// What the checks and subject sets say; the chain is held against the state, and that it has the fewest persons.
    fn asked(&mut self, api: &Api, q: Question) -> (Said, Said, Found, Said, Said) {
        let list = (api.lists.check)(&self.flat.lists, q);
        let row = (api.rows.check)(&self.flat.rows, q);
        let found = found_in(&api.chains, &self.chains, q);
        let best = || fewest(&self.chains.grants, &self.chains.loans, q);
        assert!(found.number != DONE || (found.depth, found.persons) == best(), "{q:?}: {found:?}");
        let subjects = ((api.lists.subjects)(&self.flat.lists), (api.rows.subjects)(&self.flat.rows));
        (list, row, found, subjects.0, subjects.1)
    }

    /// Each image made from the other must be the one that stands.
    fn converts(&self, api: &Api) {
        let mut made = Pair { lists: vec![0; LISTS_WORDS], rows: vec![0; ROWS_BYTES] };
        assert_eq!((api.lists_to_rows)(&self.flat.lists, &mut made.rows), DONE);
        assert_eq!((api.rows_to_lists)(&self.flat.rows, &mut made.lists), DONE);
        assert!(made == self.flat, "a conversion is not the image that stands");
    }
}

/// One bit of an image turned, as nobody's command would: both must judge the images the same.
fn judge_torn(units: &Units, seeded: &mut Seeded) {
    let mut torn = units.clone();
    torn.flat.lists[seeded.below(LISTS_WORDS as u32) as usize] ^= 1 << seeded.below(64);
    torn.flat.rows[seeded.below(ROWS_BYTES as u32) as usize] ^= 1 << seeded.below(8);
    torn.chains.grants[seeded.below(GRANTS_BYTES as u32) as usize] ^= (seeded.below(2) << seeded.below(8)) as u8;
    let near = (torn.chains.loans[0] + 3).min(LOANS_MAX);
    torn.chains.loans[seeded.below(near) as usize] ^= 1 << seeded.below(32);
    let judged = [&ENGINE, &PLAIN].map(|api| {
        let chains = (api.chains.inspect)(&torn.chains.grants, &torn.chains.loans);
        [(api.lists.inspect)(&torn.flat.lists), (api.rows.inspect)(&torn.flat.rows), chains]
    });
    assert_eq!(judged[0], judged[1], "the inspections differ");
}

pub fn run() {
    let mut seeded = Seeded::new(31);
    let (mut one, mut other) = (Units::fresh(&ENGINE), Units::fresh(&PLAIN));
    assert!(one == other, "the fresh units differ");
    for _ in 0..CALLS {
        let command = DRAWN[seeded.below(DRAWN.len() as u32) as usize];
        let g = arguments_of(&mut seeded, command, &one.chains.loans);
        let call = Call { command, g, set: set(&mut seeded, one.flat.lists[0]) };
        assert_eq!(one.command(&ENGINE, call), other.command(&PLAIN, call), "{call:?}");
        let q = Question { who: g.to, on: g.on, right: g.right };
        assert_eq!(one.asked(&ENGINE, q), other.asked(&PLAIN, q), "{q:?}");
        assert!(one == other, "the images differ after {call:?}");
        judge_torn(&one, &mut seeded);
    }
    one.converts(&ENGINE);
    one.converts(&PLAIN);
    crowded();
}
