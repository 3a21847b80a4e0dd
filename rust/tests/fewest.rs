//! "The fewest hands": request K7 of document 02 on fixed calls of the chain unit. Every expected value
//! is worked out from K7 and from the chains of document 01; what stands in quotation marks is their
//! text. Each check is asked over lent images and by the type that owns them. "Of several such, the
//! choice is still open": there any of them is taken.

mod engine;
mod judge;
mod model;
mod unit;

use std::panic::catch_unwind;

use judge::judge_chain;
use model::commands::{allow, create, delete, drop, lend, recall, shift, withdraw};
use model::{BestChain, Command, Journal};
use rights::lent::chains::Checked;
use rights::{Chains, Depth, Item, Right};
use unit::Unit;

/// The drawer and the right that is lent.
const ON: u32 = 9;
const RIGHT: u32 = 1;

fn grant(to: u32, depth: u32) -> Command {
    allow(0, to, ON, RIGHT, depth)
}

fn ungrant(to: u32, depth: u32) -> Command {
    drop(0, to, ON, RIGHT, depth)
}

fn loan(by: u32, to: u32, depth: u32) -> Command {
    lend(by, to, ON, RIGHT, depth, 0)
}

fn unloan(by: u32, to: u32, depth: u32) -> Command {
    recall(by, to, ON, RIGHT, depth, 0)
}

/// All 64 items, made by 0, after commands that are accepted.
fn ward(commands: &[Command]) -> Unit {
    let items: Vec<Command> = (1..64).map(|on| create(0, on)).collect();
    Unit::fresh().after(&items).after(commands)
}

/// The depth of the type's answer and its persons; none on no.
fn owned(unit: &Unit, who: u32) -> (u32, Vec<u8>) {
    let chains = Chains::from_images(&unit.grants, &unit.loans).expect("images in order");
    let answer = chains.check(Item(who), Item(ON), Right(RIGHT)).expect("an answer");
    let Depth(depth) = answer.depth();
    (depth, answer.persons().iter().map(|person| person.0 as u8).collect())
}

/// Yes with that depth, by one of these chains.
#[track_caller]
fn by_one_of(unit: &Unit, who: u32, depth: u32, chains: &[&[u8]]) {
    let lent = unit.persons((who, ON, RIGHT), depth);
    assert!(chains.contains(&&lent[..]), "{lent:?} and not one of {chains:?}");
    let (end, persons) = owned(unit, who);
    assert_eq!(end, depth, "{persons:?}");
    assert!(chains.contains(&&persons[..]), "{persons:?} and not one of {chains:?}");
}

/// Yes with that depth, by the one chain that has the fewest persons.
#[track_caller]
fn by(unit: &Unit, who: u32, depth: u32, chain: &[u8]) {
    by_one_of(unit, who, depth, &[chain]);
}

#[track_caller]
fn no(unit: &Unit, who: u32) {
    unit.no((who, ON, RIGHT));
    assert_eq!(owned(unit, who), (0, vec![]));
}

/// Three persons end with 0, and so do two by a direct loan of depth 0; with one of depth 1 the two end
/// with 1. Whichever of them has the lower number.
#[test]
fn direct_loan() {
    let numbers = [[3, 4, 5], [5, 4, 3], [4, 5, 3], [0, 63, 31], [63, 0, 31], [31, 63, 0]];
    for [a, b, c] in numbers {
        let [first, middle, last] = [a, b, c].map(|person| person as u8);
        let mut unit = ward(&[grant(a, 2), loan(a, b, 7), loan(b, c, 7)]);
        by(&unit, c, 0, &[first, middle, last]);
        unit.give(0, &[loan(a, c, 0)]);
        by(&unit, c, 0, &[first, last]);
        by(&unit, b, 1, &[first, middle]);
        by(&unit, a, 2, &[first]);
        unit.give(0, &[loan(a, c, 1)]);
        by(&unit, c, 1, &[first, last]);
    }
}

/// The base's "E1 check 5: yes, 0, via 3,4,5": when 3 lends to 5 too, at depth 0, 4 is named no more.
#[test]
fn base_with_a_direct_loan() {
    let mut unit = Unit::base();
    by(&unit, 5, 0, &[3, 4, 5]);
    unit.give(0, &[loan(3, 5, 0)]);
    by(&unit, 5, 0, &[3, 5]);
    unit.give(0, &[unloan(3, 5, 0)]);
    by(&unit, 5, 0, &[3, 4, 5]);
}

/// "Among chains with the greatest allowance": a grant of one's own at a lesser depth is no such chain,
/// and one at the same depth has the fewest persons.
#[test]
fn own_grant() {
    let mut unit = ward(&[grant(3, 4), loan(3, 4, 7), loan(4, 5, 2)]);
    by(&unit, 5, 2, &[3, 4, 5]);
    unit.give(0, &[grant(5, 0)]);
    by(&unit, 5, 2, &[3, 4, 5]);
    unit.give(0, &[grant(5, 1)]);
    by(&unit, 5, 2, &[3, 4, 5]);
    unit.give(0, &[grant(5, 2)]);
    by(&unit, 5, 2, &[5]);
    unit.give(0, &[grant(5, 3)]);
    by(&unit, 5, 3, &[5]);
    unit.give(0, &[ungrant(5, 3)]);
    by(&unit, 5, 2, &[5]);
    unit.give(0, &[ungrant(5, 2)]);
    by(&unit, 5, 2, &[3, 4, 5]);
}

/// One, two and three persons that end with 1: of those that stand the fewest, for each set of them.
#[test]
fn one_two_or_three_persons() {
    let ways: [(&[Command], &[u8]); 3] = [
        (&[grant(5, 1)], &[5]),
        (&[grant(6, 2), loan(6, 5, 7)], &[6, 5]),
        (&[grant(3, 3), loan(3, 4, 7), loan(4, 5, 7)], &[3, 4, 5]),
    ];
    let none = ward(&[]);
    for set in 1..8 {
        let standing = || (0..3).filter(|way| set >> way & 1 == 1).map(|way: usize| ways[way]);
        let unit = standing().fold(none.clone(), |unit, (commands, _)| unit.after(commands));
        let (_, fewest) = standing().next().expect("a way");
        by(&unit, 5, 1, fewest);
    }
    let mut unit = ways.iter().fold(none, |unit, (commands, _)| unit.after(commands));
    unit.give(0, &[ungrant(5, 1)]);
    by(&unit, 5, 1, &[6, 5]);
    unit.give(0, &[unloan(6, 5, 7)]);
    by(&unit, 5, 1, &[3, 4, 5]);
    unit.give(0, &[unloan(4, 5, 7)]);
    no(&unit, 5);
}

/// One way to 40.
struct Route {
    commands: Vec<Command>,
    /// What ends it.
    end: Command,
    depth: u32,
    persons: Vec<u8>,
}

impl Route {
    /// So many persons, from that one on, that end with the depth: by the grant, of which each loan takes
    /// one, or by the last loan, where the grant is of depth 7.
    fn new(first: u32, count: u32, depth: u32, by_loan: bool) -> Self {
        let persons: Vec<u32> = (first..first + count - 1).chain([40]).collect();
        let granted = if by_loan && count > 1 { 7 } else { depth + count - 1 };
        let lent = |to| if by_loan && to == 40 { depth } else { 7 };
        let loans = persons.windows(2).map(|pair| loan(pair[0], pair[1], lent(pair[1])));
        let commands = [grant(persons[0], granted)].into_iter().chain(loans).collect();
        let end = match persons[..] {
            [.., lender, who] => unloan(lender, who, lent(who)),
            _ => ungrant(40, granted),
        };
        let persons = persons.into_iter().map(|person| person as u8).collect();
        Self { commands, end, depth, persons }
    }

    /// Every number of persons and every depth that so many can end with.
    fn every(first: u32, by_loan: bool) -> Vec<Self> {
        let ends = |count| (0..=8 - count).map(move |depth| (count, depth));
        let every = (1..=8).flat_map(ends);
        every.map(|(count, depth)| Self::new(first, count, depth, by_loan)).collect()
    }

    /// "Among chains with the greatest allowance" the fewest: it is given before the other.
    fn before(&self, other: &Self) -> bool {
        let (more, fewer) = (self.depth > other.depth, self.persons.len() < other.persons.len());
        more || self.depth == other.depth && fewer
    }
}

/// Each two of the 36 routes, of 1 to 8 persons and with each depth that they can end with: the one with
/// more is given, and of two with as much the one of fewer persons; when it ends, the other.
#[test]
fn every_two_routes() {
    let none = ward(&[]);
    let (ones, others) = (Route::every(10, false), Route::every(20, true));
    assert_eq!((ones.len(), others.len()), (36, 36));
    for one in &ones {
        let alone = none.clone().after(&one.commands);
        by(&alone, 40, one.depth, &one.persons);
        for other in &others {
            let mut unit = alone.clone().after(&other.commands);
            let (given, left) = if other.before(one) { (other, one) } else { (one, other) };
            if !one.before(other) && !other.before(one) {
                by_one_of(&unit, 40, one.depth, &[&one.persons, &other.persons]);
                continue;
            }
            by(&unit, 40, given.depth, &given.persons);
            unit.give(0, &[given.end]);
            by(&unit, 40, left.depth, &left.persons);
        }
    }
}

/// Greatest allowance first: one person ends with 0, two with 1, three with 2 and four with 3; the four
/// are named, and as each ends the next.
#[test]
fn more_persons_for_more() {
    let routes: Vec<Route> = (1..5).map(|n| Route::new(10 * n - 9, n, n - 1, false)).collect();
    let mut unit = routes.iter().fold(ward(&[]), |unit, route| unit.after(&route.commands));
    for route in routes.iter().rev() {
        by(&unit, 40, route.depth, &route.persons);
        unit.give(0, &[route.end]);
    }
    no(&unit, 40);
}

/// The longest, eight persons that end with 0. Three loans past one of them leave as much, and each makes
/// the chain one shorter; then a direct loan, and a grant of one's own.
#[test]
fn eight_persons_and_fewer() {
    let line: Vec<Command> = (10..17).map(|by| loan(by, by + 1, 7)).collect();
    let mut unit = ward(&[grant(10, 7)]).after(&line);
    by(&unit, 17, 0, &[10, 11, 12, 13, 14, 15, 16, 17]);
    no(&unit, 18);
    let shorter: [(Command, Command, &[u8]); 5] = [
        (loan(10, 12, 5), unloan(10, 12, 5), &[10, 12, 13, 14, 15, 16, 17]),
        (loan(14, 16, 1), unloan(14, 16, 1), &[10, 12, 13, 14, 16, 17]),
        (loan(12, 14, 3), unloan(12, 14, 3), &[10, 12, 14, 16, 17]),
        (loan(10, 17, 0), unloan(10, 17, 0), &[10, 17]),
        (grant(17, 0), ungrant(17, 0), &[17]),
    ];
    for (made, _, chain) in shorter {
        unit.give(0, &[made]);
        by(&unit, 17, 0, chain);
    }
    by(&unit, 16, 1, &[10, 12, 14, 16]);
    by(&unit, 15, 2, &[10, 12, 14, 15]);
    by(&unit, 11, 6, &[10, 11]);
    for pair in shorter.windows(2).rev() {
        unit.give(0, &[pair[1].1]);
        by(&unit, 17, 0, pair[0].2);
    }
    unit.give(0, &[shorter[0].1]);
    by(&unit, 17, 0, &[10, 11, 12, 13, 14, 15, 16, 17]);
}

/// Eight persons by either of two ways in the middle: eight are named, and one of the two.
#[test]
fn eight_persons_twice() {
    let line: Vec<Command> = (10..17).map(|by| loan(by, by + 1, 7)).collect();
    let mut unit = ward(&[grant(10, 7), loan(12, 23, 7), loan(23, 14, 7)]).after(&line);
    let [one, other] = [[10, 11, 12, 13, 14, 15, 16, 17], [10, 11, 12, 23, 14, 15, 16, 17]];
    by_one_of(&unit, 17, 0, &[&one, &other]);
    unit.give(0, &[unloan(13, 14, 7)]);
    by(&unit, 17, 0, &other);
}

/// Loans by which the right comes back to 3: to oneself, to the lender, and round by three.
const LOOPS: [&[Command]; 3] = [
    &[lend(3, 3, ON, RIGHT, 7, 0)],
    &[lend(3, 4, ON, RIGHT, 7, 0), lend(4, 3, ON, RIGHT, 7, 0)],
    &[lend(3, 4, ON, RIGHT, 7, 0), lend(4, 5, ON, RIGHT, 7, 0), lend(5, 3, ON, RIGHT, 7, 0)],
];

/// A chain that goes round a loop may end with as much, as 3,4,3,6 does with 0 where 3,6 does; it has
/// more persons and is not named.
#[test]
fn loops() {
    for made in LOOPS {
        let unit = ward(&[grant(3, 7), loan(3, 6, 0)]).after(made);
        by(&unit, 6, 0, &[3, 6]);
        by(&unit, 3, 7, &[3]);
        let middle = ward(&[grant(10, 7), loan(10, 3, 7), loan(3, 6, 0)]).after(made);
        by(&middle, 6, 0, &[10, 3, 6]);
        by(&middle, 3, 6, &[10, 3]);
        let end = ward(&[grant(10, 7), loan(10, 3, 2)]).after(made);
        by(&end, 3, 2, &[10, 3]);
        let none = ward(&[loan(3, 6, 0)]).after(made);
        (3..7).for_each(|who| no(&none, who));
    }
}

/// All three loops at once, with loops at 4 and 5 too.
#[test]
fn loops_together() {
    let mut unit =
        LOOPS.iter().fold(ward(&[grant(3, 7), loan(3, 6, 0)]), |unit, made| unit.after(made));
    unit.give(0, &[loan(4, 4, 7), loan(5, 4, 7), loan(5, 5, 7), loan(6, 3, 7), loan(6, 6, 7)]);
    by(&unit, 4, 6, &[3, 4]);
    by(&unit, 5, 5, &[3, 4, 5]);
    by(&unit, 6, 0, &[3, 6]);
    unit.give(0, &[loan(5, 6, 0)]);
    by(&unit, 6, 0, &[3, 6]);
    unit.give(0, &[unloan(3, 6, 0)]);
    by(&unit, 6, 0, &[3, 4, 5, 6]);
    unit.give(0, &[loan(4, 6, 0)]);
    by(&unit, 6, 0, &[3, 4, 6]);
}

/// Persons 0 to 13, each with loans of every depth to the next, to all before and to oneself: 944 of the
/// 1,024 loans. The right of 0 at depth 7 goes from each to the next and by no shorter way, until 0 lends
/// to 7 at depth 0.
#[test]
fn loops_of_many_loans() {
    let pairs = (0..14u32).flat_map(|by| (0..14.min(by + 2)).map(move |to| (by, to)));
    let loans: Vec<Command> = pairs
        .flat_map(|pair| (0..8).map(move |d| (pair, d)))
        .map(|((by, to), depth)| loan(by, to, depth))
        .collect();
    let mut unit = ward(&[grant(0, 7)]).after(&loans);
    assert_eq!(unit.loans[0], 944);
    let line = [0, 1, 2, 3, 4, 5, 6, 7];
    (0..8).for_each(|who: u32| by(&unit, who, 7 - who, &line[..=who as usize]));
    (8..14).for_each(|who| no(&unit, who));
    unit.give(0, &[loan(0, 7, 0)]);
    by(&unit, 7, 0, &[0, 7]);
    by(&unit, 6, 1, &line[..7]);
}

/// "Of several such, the choice is still open": three lenders with grants leave 6 as much, and a longer
/// chain beside them too. Two persons are named while one of the three lends, in whatever order they
/// cease to.
#[test]
fn several_first_persons() {
    let loans = [loan(3, 6, 7), loan(4, 6, 7), loan(5, 6, 7)];
    let all = ward(&[grant(3, 2), grant(4, 2), grant(5, 2), grant(7, 3)]);
    let all = all.after(&loans).after(&[loan(7, 8, 7), loan(8, 6, 7)]);
    for [a, b, c] in [[3, 4, 5], [4, 5, 3], [5, 3, 4], [5, 4, 3], [4, 3, 5], [3, 5, 4]] {
        let mut unit = all.clone();
        let [x, y, z] = [a, b, c].map(|person| [person as u8, 6]);
        by_one_of(&unit, 6, 1, &[&x, &y, &z]);
        unit.give(0, &[unloan(a, 6, 7)]);
        by_one_of(&unit, 6, 1, &[&y, &z]);
        unit.give(0, &[unloan(b, 6, 7)]);
        by(&unit, 6, 1, &z);
        unit.give(0, &[unloan(c, 6, 7)]);
        by(&unit, 6, 1, &[7, 8, 6]);
    }
}

/// 3 lends to 4, 5 and 6, who leave 10 as much: three persons are named, one of them in the middle.
#[test]
fn several_middle_persons() {
    let onward = [loan(3, 4, 7), loan(3, 5, 7), loan(3, 6, 7)];
    let mut unit = ward(&[grant(3, 4)]).after(&onward);
    unit.give(0, &[loan(4, 10, 1), loan(5, 10, 1), loan(6, 10, 1), loan(4, 5, 7), loan(5, 6, 7)]);
    by_one_of(&unit, 10, 1, &[&[3, 4, 10], &[3, 5, 10], &[3, 6, 10]]);
    unit.give(0, &[unloan(3, 5, 7)]);
    by_one_of(&unit, 10, 1, &[&[3, 4, 10], &[3, 6, 10]]);
    unit.give(0, &[loan(6, 10, 2)]);
    by(&unit, 10, 2, &[3, 6, 10]);
}

/// Six times three persons between 1 and 40, each with a loan to each of the next three and one back to
/// each of those before: 729 chains of eight persons, and many longer ways round.
#[test]
fn several_hundred_chains() {
    let layer = |n: u8| match n {
        0 => vec![1],
        7 => vec![40],
        _ => (3 * n + 7..3 * n + 10).collect::<Vec<u8>>(),
    };
    let pairs = (0..7).flat_map(|n| {
        layer(n).into_iter().flat_map(move |by| layer(n + 1).into_iter().map(move |to| (by, to)))
    });
    let both = pairs.map(|(by, to)| (u32::from(by), u32::from(to)));
    let loans = both.flat_map(|(by, to)| [loan(by, to, 7), loan(to, by, 7)]);
    let unit = ward(&[grant(1, 7)]).after(&loans.collect::<Vec<Command>>());
    for (n, who) in (0..8u8).flat_map(|n| layer(n).into_iter().map(move |who| (n, who))) {
        let depth = 7 - u32::from(n);
        let lent = unit.persons((who.into(), ON, RIGHT), depth);
        let (end, persons) = owned(&unit, who.into());
        assert_eq!(end, depth, "{persons:?}");
        for chain in [lent, persons] {
            assert_eq!((chain.len(), chain.last()), (usize::from(n) + 1, Some(&who)));
            let in_layer = |(n, person): (u8, &u8)| layer(n).contains(person);
            assert!((0..).zip(&chain).all(in_layer), "{chain:?}");
        }
    }
}

/// "A loan carries only while open-ended or not past its last shift": with its last shift the direct loan
/// leaves the choice, and the longer chain is named; the same loan with a later last shift is one too.
#[test]
fn last_shift_of_the_shorter() {
    let until = |last| lend(3, 5, ON, RIGHT, 0, last);
    let mut unit = ward(&[grant(3, 2), loan(3, 4, 7), loan(4, 5, 7), until(4)]);
    for now in 0..5 {
        unit.give(0, &[shift(0, now)]);
        by(&unit, 5, 0, &[3, 5]);
    }
    unit.give(0, &[shift(0, 5)]);
    by(&unit, 5, 0, &[3, 4, 5]);
    unit.give(0, &[until(6)]);
    by(&unit, 5, 0, &[3, 5]);
    unit.give(0, &[shift(0, 6)]);
    by(&unit, 5, 0, &[3, 5]);
    unit.give(0, &[shift(0, 7)]);
    by(&unit, 5, 0, &[3, 4, 5]);
}

/// The direct loan leaves 1 up to shift 4, the three persons 0 throughout. And where the three leave 1 up
/// to shift 4, the direct loan 0 throughout, it is the two who come after.
#[test]
fn last_shift_of_the_greater() {
    let mut unit = ward(&[grant(3, 2), loan(3, 4, 7), loan(4, 5, 7)]);
    unit.give(0, &[lend(3, 5, ON, RIGHT, 7, 4), shift(0, 4)]);
    by(&unit, 5, 1, &[3, 5]);
    unit.give(0, &[shift(0, 5)]);
    by(&unit, 5, 0, &[3, 4, 5]);
    let mut unit = ward(&[grant(3, 3), loan(3, 4, 7), loan(3, 5, 0)]);
    unit.give(0, &[lend(4, 5, ON, RIGHT, 7, 4), shift(0, 4)]);
    by(&unit, 5, 1, &[3, 4, 5]);
    unit.give(0, &[shift(0, 5)]);
    by(&unit, 5, 0, &[3, 5]);
}

/// Two persons and three end with 1. When the two come to an end, by recall, by drop or withdraw of the
/// lender's grant, or with the lender, the three are named; when the three do, the two are.
#[test]
fn end_of_the_shorter() {
    let both = ward(&[grant(6, 2), loan(6, 5, 7), grant(3, 3), loan(3, 4, 7), loan(4, 5, 7)]);
    by(&both, 5, 1, &[6, 5]);
    let of_two = [unloan(6, 5, 7), ungrant(6, 2), withdraw(0, 6, ON, RIGHT), delete(0, 6)];
    for end in of_two {
        by(&both.clone().after(&[end]), 5, 1, &[3, 4, 5]);
    }
    by(&both.clone().after(&[delete(0, 6), create(0, 6)]), 5, 1, &[3, 4, 5]);
    let of_three = [unloan(3, 4, 7), ungrant(3, 3), withdraw(0, 3, ON, RIGHT), delete(0, 4)];
    for end in of_three {
        by(&both.clone().after(&[end]), 5, 1, &[6, 5]);
    }
}

/// "all on that item and right": a direct loan on another drawer or of another right makes no chain
/// shorter, though it opens that one.
#[test]
fn other_item_or_right() {
    let mut unit = ward(&[grant(3, 2), loan(3, 4, 7), loan(4, 5, 7)]);
    for (on, right) in [(ON + 1, RIGHT), (ON, RIGHT + 1)] {
        unit.give(0, &[allow(0, 3, on, right, 2), lend(3, 5, on, right, 0, 0)]);
        unit.yes((5, on, right), 0, &[3, 5]);
        by(&unit, 5, 0, &[3, 4, 5]);
    }
}

/// Of several loans between the same two the deepest counts: 3 lends to 5 at depth 0, which ends with
/// less than the three persons do, then at depth 1, which ends with as much.
#[test]
fn loans_of_several_depths() {
    let mut unit = ward(&[grant(3, 3), loan(3, 4, 0), loan(3, 4, 7), loan(4, 5, 7)]);
    unit.give(0, &[loan(3, 5, 0)]);
    by(&unit, 5, 1, &[3, 4, 5]);
    unit.give(0, &[loan(3, 5, 1)]);
    by(&unit, 5, 1, &[3, 5]);
    unit.give(0, &[unloan(3, 5, 0)]);
    by(&unit, 5, 1, &[3, 5]);
    unit.give(0, &[unloan(3, 5, 1)]);
    by(&unit, 5, 1, &[3, 4, 5]);
}

/// Whether the judge of random lists takes such an answer about 5 where the best chains end with 0 and
/// have so many persons.
fn judge_takes(journal: &Journal, fewest: u32, persons: u32, chain: &[u8]) -> bool {
    let mut buffer = [255; 8];
    buffer[..chain.len()].copy_from_slice(chain);
    let best = Some(BestChain { allowance: 0, persons: fewest });
    let checked = Checked { number: 0, depth: 0, persons };
    let judge = || judge_chain(journal, (5, ON, RIGHT), best, checked, [7; 8], buffer);
    catch_unwind(judge).is_ok()
}

/// The judge takes any chain of the fewest persons, and none that is longer, is cut, is to another, goes on
/// after its end or names somebody twice: 3,5 and 6,5 end with 0, and so do 3,4,5 and 3,4,3,5, and 3,8.
#[test]
fn judge_of_random_lists() {
    let items = (3..10).map(|on| create(0, on));
    let made = [grant(3, 7), grant(6, 7), loan(3, 4, 7), loan(4, 3, 7)];
    let at_0 = [loan(3, 5, 0), loan(4, 5, 0), loan(6, 5, 0), loan(3, 8, 0)];
    let mut journal = Journal::fresh();
    for command in items.chain(made).chain(at_0) {
        assert_eq!(journal.give(command), (0, 0), "{command:?}");
    }
    let takes = |fewest, persons, chain: &[u8]| judge_takes(&journal, fewest, persons, chain);
    assert!(takes(2, 2, &[3, 5]) && takes(2, 2, &[6, 5]));
    assert!(!takes(2, 3, &[3, 4, 5]) && !takes(2, 4, &[3, 4, 3, 5]));
    assert!(!takes(2, 2, &[3, 4, 5]) && !takes(2, 3, &[3, 5]));
    assert!(!takes(2, 2, &[3, 8]) && !takes(2, 2, &[3, 5, 5]));
    assert!(!takes(2, 2, &[4, 5]) && !takes(2, 1, &[5]) && !takes(2, 0, &[]));
    assert!(takes(3, 3, &[3, 4, 5]) && !takes(3, 2, &[3, 5]));
    assert!(!takes(4, 4, &[3, 4, 3, 5]));
}
