//! Each public call, engine against plain Rust, on the same images.

use crate::api::*;
use crate::engine::ENGINE;
use crate::lockstep::chains_hold;
use crate::measure::{compare, Times};
use crate::plain::{bits, PLAIN, SETTLING};
use crate::state::{home, written, ChainState, Lending, Pair, KEY, LENDER};
use std::hint::black_box;

pub type Step<T, S> = fn(&T, &mut S) -> u64;

/// A step of some calls that leaves the images as it found them, or that can be repeated on what it leaves.
/// Its result folds what the calls answered.
pub struct Case<T, S> {
    pub name: String,
    pub calls: u32,
    pub state: S,
    pub step: Step<T, S>,
}

pub struct Line {
    pub name: String,
    pub times: Times,
}

/// The steps of the comparison that goes before the timing.
const TRIED: u32 = 64;

fn agree<T, S: Clone + PartialEq>(case: &Case<T, S>, engine: &T, plain: &T) {
    let (mut one, mut other) = (case.state.clone(), case.state.clone());
    for _ in 0..TRIED {
        let answers = ((case.step)(engine, &mut one), (case.step)(plain, &mut other));
        assert_eq!(answers.0, answers.1, "{}: the answers differ", case.name);
        assert!(one == other, "{}: the images differ", case.name);
    }
}

pub fn run<T, S: Clone + PartialEq>(mut case: Case<T, S>, engine: &T, plain: &T) -> Line {
    agree(&case, engine, plain);
    let (engine, plain) = (black_box(engine), black_box(plain));
    let step = black_box(case.step);
    let times = compare(&mut case.state, case.calls, |s| step(engine, s), |s| step(plain, s));
    Line { name: case.name, times }
}

pub fn digest(said: Said) -> u64 {
    said.value.wrapping_mul(32) + u64::from(said.number)
}

/// A grant that stands nowhere in the states: the root's, to item 6 on item 8.
const GRANT: Grant = Grant { by: 0, to: 6, on: 8, right: 3, depth: 2 };

/// Forty persons, items 1 to 40, all alive; and forty of which one is dead in lists and rows, item 50.
const FORTY: u64 = ((1 << 40) - 1) << 1;
const ONE_DEAD: u64 = FORTY ^ 1 << 40 ^ 1 << 50;

fn flat_cases<C: Clone + From<u8>>(unit: &Flat<C>, cells: usize) -> Vec<Case<Flat<C>, Vec<C>>> {
    let case = |name: &str, calls, step: Step<Flat<C>, Vec<C>>| Case {
        name: name.to_string(),
        calls,
        state: home(unit, cells),
        step,
    };
    vec![
        case("fresh", 1, |u, s| u64::from((u.fresh)(s))),
        case("create + delete", 2, |u, s| u64::from((u.create)(s, 0, 50) + 16 * (u.delete)(s, 0, 50))),
        case("create, refused with 6", 1, |u, s| u64::from((u.create)(s, 0, 7))),
        case("delete, refused with 8", 1, |u, s| u64::from((u.delete)(s, 6, 7))),
        case("allow + withdraw", 2, |u, s| u64::from((u.allow)(s, GRANT) + 16 * (u.withdraw)(s, GRANT))),
        case("allow, refused with 8", 1, |u, s| u64::from((u.allow)(s, Grant { by: 6, ..GRANT }))),
        case("allow_set of 40 members", 1, |u, s| u64::from((u.allow_set)(s, FORTY, GRANT))),
        case("allow_set of 40 members, refused with 5", 1, |u, s| u64::from((u.allow_set)(s, ONE_DEAD, GRANT))),
        case("check", 1, |u, s| digest((u.check)(s, Question { who: 0, on: 7, right: 0 }))),
        case("check, refused with 3", 1, |u, s| digest((u.check)(s, Question { who: 64, on: 7, right: 0 }))),
        case("subjects", 1, |u, s| digest((u.subjects)(s))),
        case("inspect", 1, |u, s| u64::from((u.inspect)(s))),
    ]
}

pub fn lists() -> Vec<Line> {
    let cases = flat_cases(&PLAIN.lists, LISTS_WORDS).into_iter();
    cases.map(|case| run(case, &ENGINE.lists, &PLAIN.lists)).collect()
}

pub fn rows() -> Vec<Line> {
    let cases = flat_cases(&PLAIN.rows, ROWS_BYTES).into_iter();
    cases.map(|case| run(case, &ENGINE.rows, &PLAIN.rows)).collect()
}

pub fn conversions() -> Vec<Line> {
    let case = |name: &str, state, step: Step<Api, Pair>| Case { name: name.to_string(), calls: 1, state, step };
    let to_rows = |u: &Api, s: &mut Pair| u64::from((u.lists_to_rows)(&s.lists, &mut s.rows));
    let to_lists = |u: &Api, s: &mut Pair| u64::from((u.rows_to_lists)(&s.rows, &mut s.lists));
    let cases = [
        case("lists to rows, 240 grants", Pair::home(), to_rows),
        case("lists to rows, every grant", Pair::full(), to_rows),
        case("rows to lists, 240 grants", Pair::home(), to_lists),
        case("rows to lists, every grant", Pair::full(), to_lists),
    ];
    cases.into_iter().map(|case| run(case, &ENGINE, &PLAIN)).collect()
}

type ChainCase = Case<Chains, ChainState>;

fn chain_case(name: String, calls: u32, state: ChainState, step: Step<Chains, ChainState>) -> ChainCase {
    Case { name, calls, state, step }
}

/// The commands that grants decide, beside that many loans.
fn grant_cases(loans: u32) -> Vec<ChainCase> {
    let case = |name, calls, step: Step<Chains, ChainState>| {
        chain_case(format!("{name}, {} loans", written(loans)), calls, ChainState::without_63(loans), step)
    };
    vec![
        case("create + delete", 2, |u, s| {
            let created = (u.create)(&mut s.grants, &mut s.loans, 0, 63);
            u64::from(created + 16 * (u.delete)(&mut s.grants, &mut s.loans, 0, 63))
        }),
        case("create, refused with 6", 1, |u, s| u64::from((u.create)(&mut s.grants, &mut s.loans, 0, 7))),
        case("allow + withdraw", 2, |u, s| {
            let allowed = (u.allow)(&mut s.grants, &mut s.loans, GRANT);
            u64::from(allowed + 16 * (u.withdraw)(&mut s.grants, &mut s.loans, GRANT))
        }),
        case("allow + drop", 2, |u, s| {
            let allowed = (u.allow)(&mut s.grants, &mut s.loans, GRANT);
            u64::from(allowed + 16 * (u.drop)(&mut s.grants, &mut s.loans, GRANT))
        }),
        case("allow, refused with 8", 1, |u, s| {
            u64::from((u.allow)(&mut s.grants, &mut s.loans, Grant { by: 6, ..GRANT }))
        }),
        case("allow_set of 40 members", 1, |u, s| u64::from((u.allow_set)(&mut s.grants, &mut s.loans, FORTY, GRANT))),
        case("inspect", 1, |u, s| u64::from((u.inspect)(&s.grants, &s.loans))),
    ]
}

fn lend_recall(u: &Chains, s: &mut ChainState, loan: Grant) -> u64 {
    let lent = (u.lend)(&mut s.grants, &mut s.loans, loan);
    u64::from(lent + 16 * (u.recall)(&mut s.grants, &mut s.loans, loan))
}

/// The least and the greatest loan of any table here: lenders in the tables are 1 to 62.
const LEAST: Grant = Grant { by: 0, to: 1, on: 1, right: 1, depth: 0 };
const GREATEST: Grant = Grant { by: 63, to: 63, on: 63, right: 7, depth: 7 };

fn loan_cases() -> Vec<ChainCase> {
    let case = |name: &str, calls, loans, step: Step<Chains, ChainState>| {
        chain_case(name.to_string(), calls, ChainState::spread(loans), step)
    };
    vec![
        case("lend + recall, 0 loans", 2, 0, |u, s| lend_recall(u, s, LEAST)),
        case("lend + recall at the front, 1,023 loans", 2, 1023, |u, s| lend_recall(u, s, LEAST)),
        case("lend + recall at the end, 1,023 loans", 2, 1023, |u, s| lend_recall(u, s, GREATEST)),
        case("lend, refused with 10, 1,024 loans", 1, 1024, |u, s| {
            u64::from((u.lend)(&mut s.grants, &mut s.loans, LEAST))
        }),
        case("lend, refused with 9, 1,024 loans", 1, 1024, |u, s| {
            u64::from((u.lend)(&mut s.grants, &mut s.loans, Grant { right: 0, ..LEAST }))
        }),
        case("recall of none, 1,024 loans", 1, 1024, |u, s| u64::from((u.recall)(&mut s.grants, &mut s.loans, LEAST))),
    ]
}

/// Depth 2 of the lender's grants of the key; withdraw takes every depth.
const ENDED: Grant = Grant { by: 0, to: LENDER, on: KEY.0, right: KEY.1, depth: 2 };

type LendingStep = Step<Chains, Lending>;

fn withdraw_step(u: &Chains, s: &mut Lending) -> u64 {
    s.put_back();
    u64::from((u.withdraw)(&mut s.unit.grants, &mut s.unit.loans, ENDED))
}

fn drop_step(u: &Chains, s: &mut Lending) -> u64 {
    s.put_back();
    u64::from((u.drop)(&mut s.unit.grants, &mut s.unit.loans, ENDED))
}

/// Withdraws and drops beside 1,024 loans, some of them the lender's on the key.
fn ending_cases() -> Vec<Case<Chains, Lending>> {
    const ONE: u8 = 1 << ENDED.depth;
    let case = |name: &str, unit, depths, step: LendingStep| Case {
        name: name.to_string(),
        calls: 1,
        state: Lending::new(unit, depths),
        step,
    };
    let of = |own, name: &str, depths, step| {
        case(&format!("{name}, {} of 1,024 loans", written(own)), ChainState::lent_by(own), depths, step)
    };
    vec![
        case("no call: grants and loans put back", ChainState::lent_by(512), ONE, |_, s| {
            s.put_back();
            0
        }),
        of(0, "withdraw", ONE, withdraw_step),
        of(1, "withdraw", ONE, withdraw_step),
        of(512, "withdraw", ONE, withdraw_step),
        of(1024, "withdraw", ONE, withdraw_step),
        case("withdraw, 512 of 1,024 loans, last shifts", ChainState::lent_by(512).dated(3), ONE, withdraw_step),
        of(512, "withdraw where no grant stands", 0, withdraw_step),
        of(512, "drop that leaves a depth", ONE | 1, drop_step),
        of(0, "drop of the last grant", ONE, drop_step),
        of(512, "drop of the last grant", ONE, drop_step),
    ]
}

/// Sweeps by item 6 of a full table, of whose loans some are past.
fn sweep_cases() -> Vec<Case<Chains, Lending>> {
    let case = |name: String, past, step: LendingStep| Case {
        name,
        calls: 1,
        state: Lending::new(ChainState::past(past), 0),
        step,
    };
    let put_back = case("no call: loans put back".to_string(), 512, |_, s| {
        s.put_back();
        0
    });
    let sweeps = [0, 512, 1024].map(|past| {
        case(format!("sweep, {} past of 1,024 loans", written(past)), past, |u, s| {
            s.put_back();
            digest((u.sweep)(&mut s.unit.grants, &mut s.unit.loans, 6))
        })
    });
    [put_back].into_iter().chain(sweeps).collect()
}

/// A check of the key for the next of the 64 persons.
fn check_next(u: &Chains, s: &mut ChainState) -> Found {
    let q = Question { who: s.who, on: KEY.0, right: KEY.1 };
    s.who = (s.who + 1) % 64;
    (u.check)(&s.grants, &s.loans, q, &mut s.chain)
}

fn check_step(u: &Chains, s: &mut ChainState) -> u64 {
    let found = check_next(u, s);
    u64::from(found.number + 16 * found.depth + 256 * found.persons)
}

/// Yes or no in the place of the number of persons, which settling need not have as the fewest.
fn settling_step(u: &Chains, s: &mut ChainState) -> u64 {
    let found = check_next(u, s);
    u64::from(found.number + 16 * found.depth + 256 * u32::from(found.persons != 0))
}

fn check_case((name, state): (String, ChainState)) -> ChainCase {
    chains_hold(&state);
    chain_case(name, 1, state, check_step)
}

/// Checks beside open-ended loans.
fn check_cases() -> Vec<ChainCase> {
    let one = [0, 64, 256, 1024].map(|n| (format!("check, {} loans of the key", written(n)), ChainState::one_key(n)));
    let spread =
        [64, 256, 1024].map(|n| (format!("check, {} loans spread over keys", written(n)), ChainState::spread(n)));
    one.into_iter().chain(spread).map(check_case).collect()
}

/// Checks in shift 3 beside loans with last shifts 0 to 5, of which two in six are past.
fn dated_cases() -> Vec<ChainCase> {
    let name = |n| format!("check, {} loans of the key with last shifts", written(n));
    [64, 256, 1024].map(|n| check_case((name(n), ChainState::one_key(n).dated(3)))).into()
}

pub fn chains() -> Vec<Line> {
    let fresh = chain_case("fresh".to_string(), 1, ChainState::fresh(), |u, s| {
        u64::from((u.fresh)(&mut s.grants, &mut s.loans))
    });
    let cases = [vec![fresh], grant_cases(0), grant_cases(1024), loan_cases()].into_iter().flatten();
    cases.map(|case| run(case, &ENGINE.chains, &PLAIN.chains)).collect()
}

pub fn endings() -> Vec<Line> {
    ending_cases().into_iter().map(|case| run(case, &ENGINE.chains, &PLAIN.chains)).collect()
}

pub fn sweeps() -> Vec<Line> {
    sweep_cases().into_iter().map(|case| run(case, &ENGINE.chains, &PLAIN.chains)).collect()
}

pub fn checks() -> Vec<Line> {
    let cases = check_cases().into_iter().chain(dated_cases());
    cases.map(|case| run(case, &ENGINE.chains, &PLAIN.chains)).collect()
}

/// The checks beside open-ended loans against plain Rust that settles each person once.
pub fn settling_checks() -> Vec<Line> {
    let cases = check_cases().into_iter().map(|case| Case { step: settling_step, ..case });
    cases.map(|case| run(case, &ENGINE.chains, &SETTLING)).collect()
}

/// Single commands one after another against one that does the same at once, both by the engine. Before the timing: both
/// leave the same.
fn at_once_line<S: Clone + PartialEq>(
    name: String,
    mut state: S,
    at_once: fn(&mut S) -> u32,
    each: fn(&mut S) -> u32,
) -> Line {
    let (mut one, mut other) = (state.clone(), state.clone());
    assert_eq!((at_once(&mut one), each(&mut other)), (DONE, DONE), "{name}: refused");
    assert!(one == other && one != state, "{name}: the images differ");
    let (at_once, each) = (black_box(at_once), black_box(each));
    // The shorter step decides how many make a batch.
    let times = compare(&mut state, 1, |s| u64::from(at_once(s)), |s| u64::from(each(s)));
    Line { name, times: Times { first: times.second, second: times.first, ratio: times.ratio.recip() } }
}

/// The numbers of the single allows of the forty, added up.
fn each_of_forty(mut allow: impl FnMut(Grant) -> u32) -> u32 {
    bits(FORTY).map(|to| allow(Grant { to: to as u32, ..GRANT })).sum()
}

fn chain_set_line(loans: u32) -> Line {
    let (name, state) = (format!("chain unit, {} loans", written(loans)), ChainState::without_63(loans));
    let at_once = |s: &mut ChainState| (ENGINE.chains.allow_set)(&mut s.grants, &mut s.loans, FORTY, GRANT);
    let each = |s: &mut ChainState| each_of_forty(|grant| (ENGINE.chains.allow)(&mut s.grants, &mut s.loans, grant));
    at_once_line(name, state, at_once, each)
}

/// 40 allows against one allow_set of 40 members.
pub fn sets() -> Vec<Line> {
    let lists = at_once_line(
        "lists".to_string(),
        home(&PLAIN.lists, LISTS_WORDS),
        |s| (ENGINE.lists.allow_set)(s, FORTY, GRANT),
        |s| each_of_forty(|grant| (ENGINE.lists.allow)(s, grant)),
    );
    let rows = at_once_line(
        "rows".to_string(),
        home(&PLAIN.rows, ROWS_BYTES),
        |s| (ENGINE.rows.allow_set)(s, FORTY, GRANT),
        |s| each_of_forty(|grant| (ENGINE.rows.allow)(s, grant)),
    );
    vec![lists, rows, chain_set_line(0), chain_set_line(1024)]
}

type ChainStep = fn(&mut ChainState) -> u32;

/// Drop against another call by the engine, both accepted and repeated on what they leave.
fn drop_line(name: &str, loans: u32, other: ChainStep) -> Line {
    let mut state = ChainState::without_63(loans);
    let drop = black_box::<ChainStep>(|s| (ENGINE.chains.drop)(&mut s.grants, &mut s.loans, GRANT));
    let other = black_box(other);
    assert_eq!((other(&mut state), drop(&mut state)), (DONE, DONE), "{name}: refused");
    let times = compare(&mut state, 1, |s| u64::from(drop(s)), |s| u64::from(other(s)));
    Line { name: format!("{name}, {} loans", written(loans)), times }
}

/// One drop against one withdraw and one allow.
pub fn drops() -> Vec<Line> {
    let withdraw: ChainStep = |s| (ENGINE.chains.withdraw)(&mut s.grants, &mut s.loans, GRANT);
    let allow: ChainStep = |s| (ENGINE.chains.allow)(&mut s.grants, &mut s.loans, GRANT);
    let of_both = |loans| [drop_line("withdraw", loans, withdraw), drop_line("allow", loans, allow)];
    [0, 1024].into_iter().flat_map(of_both).collect()
}

/// Eight drops against the withdraw that they are; the person has three of the depths.
fn withdraw_line(loans: u32) -> Line {
    let mut state = ChainState::without_63(loans);
    for depth in [0, 3, 7] {
        assert_eq!((PLAIN.chains.allow)(&mut state.grants, &mut state.loans, Grant { depth, ..GRANT }), DONE);
    }
    let at_once = |s: &mut ChainState| (ENGINE.chains.withdraw)(&mut s.grants, &mut s.loans, GRANT);
    let each = |s: &mut ChainState| {
        (0..8).map(|depth| (ENGINE.chains.drop)(&mut s.grants, &mut s.loans, Grant { depth, ..GRANT })).sum()
    };
    at_once_line(format!("chain unit, {} loans", written(loans)), state, at_once, each)
}

pub fn withdraws() -> Vec<Line> {
    vec![withdraw_line(0), withdraw_line(1024)]
}
