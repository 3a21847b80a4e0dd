//! The states that are measured, made by commands from fresh units and a seeded generator.

use crate::api::*;
use crate::plain::{bits, loans, PLAIN};

/// xorshift64*: enough for inputs, and the same on every machine.
pub struct Seeded(u64);

impl Seeded {
    pub fn new(seed: u64) -> Seeded {
        Seeded(seed | 1)
    }

    pub fn below(&mut self, limit: u32) -> u32 {
        self.0 ^= self.0 >> 12;
        self.0 ^= self.0 << 25;
        self.0 ^= self.0 >> 27;
        let drawn = self.0.wrapping_mul(0x2545_F491_4F6C_DD1D) >> 32;
        ((drawn * u64::from(limit)) >> 32) as u32
    }

    /// A grant or a loan by the root, among items below the limit, rights 1 to 7.
    pub fn grant(&mut self, items: u32) -> Grant {
        Grant { by: 0, to: self.below(items), on: self.below(items), right: 1 + self.below(7), depth: self.below(8) }
    }
}

/// A count below a million, as the tables write it.
pub fn written(count: u32) -> String {
    match count {
        0..=999 => count.to_string(),
        _ => format!("{},{:03}", count / 1000, count % 1000),
    }
}

pub fn fresh_flat<C: Clone + From<u8>>(unit: &Flat<C>, cells: usize) -> Vec<C> {
    let mut image = vec![C::from(0); cells];
    assert_eq!((unit.fresh)(&mut image), DONE);
    image
}

/// Items 0 to 40 live, the root has made the others, and 200 grants stand. Item 50 is dead.
pub fn home<C: Clone + From<u8>>(unit: &Flat<C>, cells: usize) -> Vec<C> {
    let mut image = fresh_flat(unit, cells);
    let mut seeded = Seeded::new(7);
    (1..=40).for_each(|on| assert_eq!((unit.create)(&mut image, 0, on), DONE));
    (0..200).for_each(|_| assert_eq!((unit.allow)(&mut image, seeded.grant(41)), DONE));
    image
}

/// The images of lists and rows side by side, for the conversions.
#[derive(Clone, PartialEq)]
pub struct Pair {
    pub lists: Vec<u64>,
    pub rows: Vec<u8>,
}

impl Pair {
    pub fn home() -> Pair {
        Pair { lists: home(&PLAIN.lists, LISTS_WORDS), rows: home(&PLAIN.rows, ROWS_BYTES) }
    }

    /// Every item lives and every grant stands.
    pub fn full() -> Pair {
        Pair { lists: vec![u64::MAX; LISTS_WORDS], rows: vec![u8::MAX; ROWS_BYTES] }
    }
}

/// A chain unit, and the chain buffer and next person of its checks.
#[derive(Clone)]
pub struct ChainState {
    pub grants: Vec<u8>,
    pub loans: Vec<u32>,
    pub chain: [u8; CHAIN_PERSONS],
    pub who: u32,
}

/// Which of the shortest best chains a check writes is open, so the buffer is no part of the comparison.
impl PartialEq for ChainState {
    fn eq(&self, other: &ChainState) -> bool {
        self.grants == other.grants && self.loans == other.loans
    }
}

/// The item and right that the checks ask about.
pub const KEY: (u32, u32) = (9, 1);

/// Whose grants of the key the withdraws and drops end that end loans: an item amid the others.
pub const LENDER: u32 = 31;

impl ChainState {
    pub fn fresh() -> ChainState {
        let (grants, loans) = (vec![0; GRANTS_BYTES], vec![0; LOANS_WORDS]);
        let mut state = ChainState { grants, loans, chain: [NO_PERSON; CHAIN_PERSONS], who: 0 };
        assert_eq!((PLAIN.chains.fresh)(&mut state.grants, &mut state.loans), DONE);
        state
    }

    /// Items 0 to last live; five persons hold the key, at depths 7, 6, 5, 4 and 3; 200 other grants stand.
    fn granted(last: u32) -> ChainState {
        let mut state = ChainState::fresh();
        let mut seeded = Seeded::new(11);
        for on in 1..=last {
            assert_eq!((PLAIN.chains.create)(&mut state.grants, &mut state.loans, 0, on), DONE);
        }
        for to in 1..=5 {
            state.allow(Grant { by: 0, to, on: KEY.0, right: KEY.1, depth: 8 - to });
        }
        (0..200).for_each(|_| state.allow(Grant { right: 2, ..seeded.grant(last + 1) }));
        state
    }

    fn allow(&mut self, grant: Grant) {
        assert_eq!((PLAIN.chains.allow)(&mut self.grants, &mut self.loans, grant), DONE);
    }

    pub fn lend(&mut self, loan: Grant) {
        assert_eq!((PLAIN.chains.lend)(&mut self.grants, &mut self.loans, loan), DONE);
    }

    /// Every item but 63 lives, so that one can be created.
    pub fn without_63(count: u32) -> ChainState {
        ChainState::granted(62).with_loans(count, 62, |loan| loan)
    }

    /// That many loans on the key.
    pub fn one_key(count: u32) -> ChainState {
        ChainState::granted(63).with_loans(count, 63, |loan| Grant { on: KEY.0, right: KEY.1, ..loan })
    }

    /// That many loans over all items and rights but 0.
    pub fn spread(count: u32) -> ChainState {
        ChainState::granted(63).with_loans(count, 63, |loan| loan)
    }

    /// A full table; that many of the loans are the lender's, on the key. Those beyond 512 have last shift 1.
    pub fn lent_by(own: u32) -> ChainState {
        let of_others = |loan: Grant| Grant { by: if loan.by == LENDER { LENDER + 1 } else { loan.by }, ..loan };
        let mut state = ChainState::granted(63).with_loans(LOANS_MAX - own, 63, of_others);
        for (at, word) in state.loans[1 + (LOANS_MAX - own) as usize..].iter_mut().enumerate() {
            let at = at as u32;
            *word = loans::code(LENDER, KEY.0, KEY.1, at / 8 % 64, at % 8) | (at / 512) << 24;
        }
        state.loans[0] = LOANS_MAX;
        state.loans[1..].sort_unstable();
        state
    }

    /// A full table over all items and rights but 0, in shift 9: that many of the loans are past, with last shifts 1 to 8;
    /// of the others every other one is open-ended, and the rest have last shifts 9 to 16.
    pub fn past(count: u32) -> ChainState {
        let mut state = ChainState::spread(LOANS_MAX);
        for (at, word) in (0..).zip(&mut state.loans[1..]) {
            // The past ones lie evenly among the rest of the word.
            let is_past = (at + 1) * count / LOANS_MAX > at * count / LOANS_MAX;
            let last = if is_past { 1 + at % 8 } else { at / 2 % 2 * (9 + at % 8) };
            *word |= last << 24;
        }
        state.loans[1..].sort_unstable();
        state.loans[0] |= 9 << 16;
        state
    }

    /// Up to 40 loans among nine persons, of the key and some of another right. In one state of two most go from a
    /// person to the next, so that chains grow long.
    pub fn crowd(seeded: &mut Seeded) -> ChainState {
        let mut state = ChainState::fresh();
        (1..=KEY.0).for_each(|on| assert_eq!((PLAIN.chains.create)(&mut state.grants, &mut state.loans, 0, on), DONE));
        let key = |grant: Grant| Grant { on: KEY.0, right: KEY.1, ..grant };
        let long = seeded.below(2) == 0;
        match long {
            true => state.allow(key(Grant { depth: DEPTH_MAX, ..seeded.grant(KEY.0) })),
            false => (0..3).for_each(|_| state.allow(key(seeded.grant(KEY.0)))),
        }
        for _ in 0..4 + seeded.below(37) {
            let (by, right) = (seeded.below(KEY.0), KEY.1 + u32::from(seeded.below(8) == 0));
            let any = Grant { by, right, ..key(seeded.grant(KEY.0)) };
            let next = Grant { to: (by + 1) % KEY.0, depth: DEPTH_MAX - seeded.below(2), ..any };
            state.lend(if long && seeded.below(8) != 0 { next } else { any });
        }
        state
    }

    /// In that shift, the loans with last shifts 0 to 5 in turn.
    pub fn dated(mut self, shift: u32) -> ChainState {
        let count = loans::count(&self.loans);
        let used = &mut self.loans[1..=count];
        used.iter_mut().zip((0..6).cycle()).for_each(|(loan, last)| *loan |= last << 24);
        used.sort_unstable();
        self.loans[0] |= shift << 16;
        self
    }

    /// Loans of lenders and borrowers 1 to last, on what `place` makes of them.
    fn with_loans(mut self, count: u32, last: u32, place: fn(Grant) -> Grant) -> ChainState {
        let mut seeded = Seeded::new(13);
        while self.loans[0] < count {
            let by = 1 + seeded.below(last - 1);
            let loan = Grant { by, ..seeded.grant(last) };
            self.lend(place(loan));
        }
        self
    }
}

/// A unit, and the lender's grants of the key (a bit for each depth) and the loans as they are put back before a step
/// that may end them.
#[derive(Clone, PartialEq)]
pub struct Lending {
    pub unit: ChainState,
    depths: u8,
    loans: Vec<u32>,
}

impl Lending {
    pub fn new(unit: ChainState, depths: u8) -> Lending {
        Lending { loans: unit.loans.clone(), unit, depths }
    }

    pub fn put_back(&mut self) {
        self.unit.grants[(8 + 512 * KEY.0 + 64 * KEY.1 + LENDER) as usize] = self.depths;
        self.unit.loans.copy_from_slice(&self.loans);
    }
}

/// Whether the persons are a chain of that depth to the person asked about, or all 255 where there is none.
pub fn is_chain(grants: &[u8], table: &[u32], q: Question, chain: &[u8], found: Found) -> bool {
    let (persons, rest) = chain.split_at(found.persons as usize);
    let padded = rest.iter().all(|&person| person == NO_PERSON);
    let Some((&first, lent)) = persons.split_first() else {
        return padded && found.depth == 0;
    };
    let byte = grants[(8 + 512 * q.on + 64 * q.right + u32::from(first)) as usize];
    let mut allowance = byte.checked_ilog2();
    let mut from = first;
    for &to in lent {
        allowance = allowance.and_then(|left| lent_on(left, greatest_loan(table, q, from, to)));
        from = to;
    }
    padded && u32::from(from) == q.who && allowance == Some(found.depth)
}

fn lent_on(left: u32, loan: Option<u32>) -> Option<u32> {
    Some(left.checked_sub(1)?.min(loan?))
}

/// The loans on the item and right that carry, each looked at by itself.
fn carrying(table: &[u32], q: Question) -> impl Iterator<Item = u32> + '_ {
    let carries = |loan| loans::last(loan) == 0 || loans::last(loan) >= loans::shift(table);
    let of_key = move |loan: &u32| loans::item(*loan) == q.on && loans::right(*loan) == q.right;
    loans::in_use(table).iter().copied().filter(of_key).filter(move |&loan| carries(loan))
}

/// The greatest depth of the carrying loans from one person to another on the item and right.
fn greatest_loan(table: &[u32], q: Question, from: u8, to: u8) -> Option<u32> {
    let pair = (u32::from(from), u32::from(to));
    let of_pair = carrying(table, q).filter(|&loan| (loans::lender(loan), loans::borrower(loan)) == pair);
    of_pair.map(loans::depth).max()
}

/// The greatest depth of any chain to the person, and the fewest persons of one that has it; 0 and 0 where there is
/// none. Every person and allowance that chains of just so many loans end with is followed, so none is left out for
/// another.
pub fn fewest(grants: &[u8], table: &[u32], q: Question) -> (u32, u32) {
    let cells = &grants[(8 + 512 * q.on + 64 * q.right) as usize..][..64];
    // For each person the allowances, a bit each.
    let mut ends: [u8; 64] = cells.try_into().expect("64 bytes");
    let mut found = (0, 0);
    for persons in 1..=CHAIN_PERSONS as u32 {
        if let Some(depth) = ends[q.who as usize].checked_ilog2().filter(|&depth| found.1 == 0 || depth > found.0) {
            found = (depth, persons);
        }
        let mut longer = [0; 64];
        for loan in carrying(table, q) {
            let (lender, borrower, depth) = (loans::lender(loan), loans::borrower(loan), loans::depth(loan));
            let left = bits(u64::from(ends[lender as usize])).filter_map(|allowance| allowance.checked_sub(1));
            left.for_each(|left| longer[borrower as usize] |= 1 << left.min(depth as usize));
        }
        ends = longer;
    }
    found
}
