//! "A withdrawn lender's loans end": request K5 of document 02 on fixed calls of the chain unit. Every
//! expected value is worked out from K5, K3 and K1 and from document 01; what stands in quotation marks
//! is their text. After each call every byte of both images is compared.

mod engine;
mod generator;
mod model;
mod unit;

use std::cmp::Ordering;
use std::collections::BTreeSet;

use engine::{check_chains, give_chains};
use generator::Random;
use model::commands::{allow, create, delete, drop, lend, recall, shift, withdraw};
use model::{word_of, Command, Loan};
use rights::lent;
use unit::Unit;

/// The drawer and the right that loans are made of where nothing else is said.
const ON: u32 = 9;
const RIGHT: u32 = 1;

/// A grant or a lender: the person, the item and the right.
type Place = (u32, u32, u32);

/// Where the grants image has the depths of a person on an item and right.
fn byte((person, on, right): Place) -> usize {
    (8 + 512 * on + 64 * right + person) as usize
}

/// The lender, item and right of a loan word.
fn place(word: u32) -> Place {
    (word >> 18 & 63, word >> 12 & 63, word >> 9 & 7)
}

/// Word 0, the words in use and zeros.
fn loans_of(shift: u32, words: &[u32]) -> Vec<u32> {
    let mut image = vec![shift * 65_536 + words.len() as u32];
    image.extend(words);
    image.resize(1025, 0);
    image
}

fn words(unit: &Unit) -> Vec<u32> {
    unit.loans[1..=(unit.loans[0] % 65_536) as usize].to_vec()
}

/// The unit without these depths of the grant, its loans as they are.
fn less(unit: &Unit, at: Place, depths: u8) -> Unit {
    let mut due = unit.clone();
    due.grants[byte(at)] &= !depths;
    due
}

/// The unit without the grant at any depth and without the loans that the person made there.
fn clean(unit: &Unit, at: Place) -> Unit {
    let mut left = words(unit);
    left.retain(|&word| place(word) != at);
    Unit { loans: loans_of(unit.loans[0] / 65_536, &left), ..less(unit, at, 255) }
}

/// The command is accepted and leaves just those images, which are in order.
#[track_caller]
fn leaves(unit: &Unit, command: Command, due: &Unit) {
    let Unit { mut grants, mut loans } = unit.clone();
    assert_eq!(give_chains(&mut grants, &mut loans, command), (0, 0), "{command:?}");
    assert!(grants == due.grants, "grants after {command:?}");
    assert!(loans == due.loans, "loans after {command:?}");
    assert_eq!(lent::chains::inspect(&grants, &loans), 0, "{command:?}");
}

/// Each command is accepted and changes no byte.
#[track_caller]
fn changes_nothing(unit: &Unit, commands: &[Command]) {
    commands.iter().for_each(|&command| leaves(unit, command, unit));
}

/// The withdraw and the drops, at each depth, of that place by 0.
fn every_end((to, on, right): Place) -> Vec<Command> {
    let drops = (0..8).map(|depth| drop(0, to, on, right, depth));
    drops.chain([withdraw(0, to, on, right)]).collect()
}

/// All 64 items, made by 0.
fn all_items() -> Unit {
    let items: Vec<Command> = (1..64).map(|on| create(0, on)).collect();
    Unit::fresh().after(&items)
}

/// All 64 items and just these loans, in that shift.
fn lent_by(shift: u32, loans: impl IntoIterator<Item = Loan>) -> Unit {
    let mut words: Vec<u32> = loans.into_iter().map(|loan| word_of(&loan)).collect();
    words.sort();
    let unit = Unit { loans: loans_of(shift, &words), ..all_items() };
    assert_eq!(lent::chains::inspect(&unit.grants, &unit.loans), 0);
    unit
}

fn loan(lender: u32, borrower: u32, depth: u32, last: u32) -> Loan {
    Loan { lender, item: ON, right: RIGHT, borrower, depth, last }
}

/// "The journal's withdraw and E5 change: after the new allow, 4 is no." The base's loans are 823,841,
/// 3's to 4, and 1,085,992, 4's to 5; by withdraw and by the drop of 3's one depth.
#[test]
fn e5() {
    for command in [withdraw(0, 3, ON, RIGHT), drop(0, 3, ON, RIGHT, 2)] {
        let mut unit = Unit::base();
        assert!(unit.loans == loans_of(0, &[823_841, 1_085_992]));
        unit.give(0, &[command]);
        assert!(unit.loans == loans_of(0, &[1_085_992]));
        assert!(unit.grants == less(&Unit::base(), (3, ON, RIGHT), 1 << 2).grants);
        (3..6).for_each(|who| unit.no((who, ON, RIGHT)));
        unit.give(0, &[allow(0, 3, ON, RIGHT, 1)]);
        unit.yes((3, ON, RIGHT), 1, &[3]);
        unit.no((4, ON, RIGHT));
        unit.no((5, ON, RIGHT));
        assert!(unit.loans == loans_of(0, &[1_085_992]));
    }
}

/// "when a person's last grant on an item and right ends": 4, who has made a loan, has no grant, and
/// nothing ends, not even where 4 had one once and lent after it had ended.
#[test]
fn lender_without_a_grant() {
    let mut unit = Unit::base();
    changes_nothing(&unit, &every_end((4, ON, RIGHT)));
    unit.yes((5, ON, RIGHT), 0, &[3, 4, 5]);
    unit.give(0, &[allow(0, 4, ON, RIGHT, 3), withdraw(0, 4, ON, RIGHT)]);
    assert!(unit.loans == loans_of(0, &[823_841]));
    unit.give(0, &[lend(4, 5, ON, RIGHT, 0, 0)]);
    assert!(unit == Unit::base());
    changes_nothing(&unit, &every_end((4, ON, RIGHT)));
}

/// A grant of another right, on another item or of another person is none there: a withdraw where there
/// is none changes nothing, and that of such a grant ends it and no loan.
#[test]
fn grant_of_another_place() {
    let there = (4, ON, RIGHT);
    let others = [(4, ON, 0), (4, ON, 2), (4, 5, RIGHT), (5, ON, RIGHT), (ON, 4, RIGHT)];
    let allows = others.map(|(to, on, right)| allow(0, to, on, right, 3));
    let unit = Unit::base().after(&allows);
    changes_nothing(&unit, &every_end(there));
    for at in others {
        let (to, on, right) = at;
        leaves(&unit, withdraw(0, to, on, right), &less(&unit, at, 255));
        leaves(&unit, drop(0, to, on, right, 3), &less(&unit, at, 1 << 3));
    }
}

/// The base, 3 without a grant on 9 of right 1, and loans of 3 there: open-ended, for this shift, 6, and
/// past, besides that to 4. Two others stand, to 3 and further down.
fn lent_by_3() -> Unit {
    let mut unit = Unit::base().after(&[allow(0, 3, ON, 0, 2), allow(0, 3, ON, 2, 2)]);
    unit.give(0, &[lend(3, 5, ON, RIGHT, 7, 5), lend(3, 3, ON, RIGHT, 0, 6)]);
    unit.give(0, &[lend(4, 3, ON, RIGHT, 6, 0), shift(0, 6)]);
    less(&unit, (3, ON, RIGHT), 255)
}

/// Of any two depths the first leaves the loans, and the other ends them: 1,085,982 and 1,085,992 are
/// 4's to 3 and to 5. A drop of a depth that does not stand ends none, before, between or after.
#[test]
fn last_of_two_depths() {
    let (unit, at) = (lent_by_3(), (3, ON, RIGHT));
    assert_eq!(unit.loans[..4], [6 * 65_536 + 5, 823_841, 1_085_982, 1_085_992]);
    for (first, other) in (0..64).map(|n| (n / 8, n % 8)).filter(|(a, b)| a != b) {
        let dropped = |depth| drop(0, 3, ON, RIGHT, depth);
        let both = unit.clone().after(&[first, other].map(|depth| allow(0, 3, ON, RIGHT, depth)));
        let neither = |depth: &u32| *depth != first && *depth != other;
        let others: Vec<Command> = (0..8).filter(neither).map(dropped).collect();
        changes_nothing(&both, &others);
        let one = less(&both, at, 1 << first);
        leaves(&both, dropped(first), &one);
        changes_nothing(&one, &others);
        changes_nothing(&one, &[dropped(first)]);
        let loans = loans_of(6, &[1_085_982, 1_085_992]);
        let none = Unit { loans, ..unit.clone() };
        leaves(&one, dropped(other), &none);
        changes_nothing(&none, &every_end(at));
    }
}

/// "withdraw is eight drops": rising, falling, from each depth on, and others, they leave what one
/// withdraw leaves; before the last grant has ended no loan has.
#[test]
fn eight_drops() {
    let at = (3, ON, RIGHT);
    let turns = (0..8).flat_map(|from| [1, 3, 5, 7].map(|step| (from, step)));
    let orders: Vec<Vec<u32>> =
        turns.map(|(from, step)| (0..8).map(|n| (from + n * step) % 8).collect()).collect();
    for depths in [0, 1, 1 << 4, 1 << 7, 137, 240, 254, 255u8] {
        let mut unit = lent_by_3();
        unit.grants[byte(at)] = depths;
        let due = if depths == 0 { unit.clone() } else { clean(&unit, at) };
        leaves(&unit, withdraw(0, 3, ON, RIGHT), &due);
        for order in &orders {
            let mut one_by_one = unit.clone();
            for &depth in order {
                one_by_one.give(0, &[drop(0, 3, ON, RIGHT, depth)]);
                let ended = one_by_one.grants[byte(at)] == 0;
                assert!(one_by_one.loans == if ended { &due } else { &unit }.loans);
            }
            assert!(one_by_one == due, "{depths:08b}, {order:?}");
        }
    }
}

/// 1,024 loans of one lender, to each person at each depth, open-ended and for shift 7: in shift 9 half
/// of them are past. None is left, "all later words 0", and the shift stays: 9·65,536 is 589,824.
#[test]
fn all_of_1024() {
    let every = (0..1024).map(|n| loan(3, n / 8 % 64, n % 8, n / 512 * 7));
    let unit = lent_by(9, every).after(&[allow(0, 3, ON, RIGHT, 4)]);
    assert_eq!((unit.loans[0], words(&unit).len()), (589_824 + 1024, 1024));
    for command in [withdraw(0, 3, ON, RIGHT), drop(0, 3, ON, RIGHT, 4)] {
        let left = unit.clone().after(&[command]);
        assert_eq!(left.loans[0], 589_824);
        assert!(left.loans[1..] == [0; 1024]);
        assert!(left.grants == all_items().grants);
    }
    changes_nothing(&less(&unit, (3, ON, RIGHT), 255), &every_end((3, ON, RIGHT)));
}

/// 1,024 loans of 64 lenders, sixteen of each, with four last shifts, in shift 6. The first word is 0's,
/// and the last is 63's; those of each other lie between.
fn full_of_all() -> Unit {
    let last = |n: u32| [0, 5, 6, 255][n as usize / 256];
    let unit = lent_by(6, (0..1024).map(|n| loan(n % 64, n / 64 % 4, n % 8, last(n))));
    let all = words(&unit);
    assert_eq!((place(all[0]), place(all[1023])), ((0, ON, RIGHT), (63, ON, RIGHT)));
    unit
}

/// Of a full table only the lender's end, "the loans in rising order" after, be they the first, the last
/// or between; the others close up.
#[test]
fn among_others() {
    let unit = full_of_all();
    for lender in 0..64 {
        let at = (lender, ON, RIGHT);
        changes_nothing(&unit, &every_end(at));
        let granted = unit.clone().after(&[allow(0, lender, ON, RIGHT, lender % 8)]);
        let due = clean(&granted, at);
        assert_eq!((due.loans[0], due.loans[1009..].to_vec()), (6 * 65_536 + 1008, vec![0; 16]));
        leaves(&granted, withdraw(0, lender, ON, RIGHT), &due);
        leaves(&granted, drop(0, lender, ON, RIGHT, lender % 8), &due);
    }
}

/// Just one loan of the lender, 5, at each of some places of the table; the others are by 3 and 4 before
/// it, and by 6 and 7 after it.
#[test]
fn one_word() {
    for at in [1, 2, 3, 16, 17, 63, 64, 65, 512, 513, 1023, 1024] {
        let by = |n: u32| match (n.cmp(&at), n <= 512) {
            (Ordering::Equal, _) => 5,
            (Ordering::Less, half) => 4 - u32::from(half),
            (Ordering::Greater, half) => 7 - u32::from(half),
        };
        for count in [at, at + 1, 1024].into_iter().filter(|&count| count <= 1024) {
            let unit = lent_by(0, (1..=count).map(|n| loan(by(n), n / 8 % 64, n % 8, 0)));
            assert_eq!(place(unit.loans[at as usize]), (5, ON, RIGHT));
            let unit = unit.after(&[allow(0, 5, ON, RIGHT, 7)]);
            let mut due = less(&unit, (5, ON, RIGHT), 1 << 7);
            due.loans.remove(at as usize);
            due.loans.push(0);
            due.loans[0] = count - 1;
            leaves(&unit, withdraw(0, 5, ON, RIGHT), &due);
            leaves(&unit, drop(0, 5, ON, RIGHT, 7), &due);
        }
    }
}

/// All but one: 5 has 1,023 loans, up to 511 of them past, and one of another is the first, the last, or
/// between the open-ended ones and the others.
#[test]
fn all_but_one() {
    for other in [loan(4, 1, 3, 0), loan(6, 1, 3, 7), loan(6, 1, 3, 0), loan(4, 1, 3, 7)] {
        let of_5 = (0..1023).map(|n| loan(5, n / 8 % 64, n % 8, n / 512 * 7));
        let unit = lent_by(9, of_5.chain([other])).after(&[allow(0, 5, ON, RIGHT, 0)]);
        assert_eq!(unit.loans[0], 9 * 65_536 + 1024);
        let loans = loans_of(9, &[word_of(&other)]);
        let due = Unit { loans, ..less(&unit, (5, ON, RIGHT), 1) };
        leaves(&unit, withdraw(0, 5, ON, RIGHT), &due);
        leaves(&unit, drop(0, 5, ON, RIGHT, 0), &due);
    }
}

/// "the loans that person made there end too", whatever their depth and last shift, past ones too: in
/// shift 6 each alone, and all together beside one of another.
#[test]
fn every_depth_and_last_shift() {
    let at = (3, ON, RIGHT);
    let lasts = [0, 1, 5, 6, 7, 128, 254, 255];
    let every = (0..64).map(|n| loan(3, n % 5, n / 8, lasts[n as usize % 8]));
    let every: Vec<Loan> = every.collect();
    for &one in &every {
        let unit = lent_by(6, [one]).after(&[allow(0, 3, ON, RIGHT, 1)]);
        let due = Unit { loans: loans_of(6, &[]), ..less(&unit, at, 255) };
        leaves(&unit, withdraw(0, 3, ON, RIGHT), &due);
        leaves(&unit, drop(0, 3, ON, RIGHT, 1), &due);
    }
    let other = loan(4, 3, 1, 6);
    let all = every.into_iter().chain([other]);
    let unit = lent_by(6, all).after(&[allow(0, 3, ON, RIGHT, 1)]);
    assert_eq!(unit.loans[0], 6 * 65_536 + 65);
    let due = Unit { loans: loans_of(6, &[word_of(&other)]), ..less(&unit, at, 255) };
    leaves(&unit, withdraw(0, 3, ON, RIGHT), &due);
}

/// Loans of 3 on each item and of each right, each to the same person and up to shift 8, which is to come
/// or past: of these one ends, that on the item and of the right that 3 has a grant of.
#[test]
fn other_items_and_rights() {
    let place = |n: u32| (n / 7, n % 7 + 1);
    for shift in [0, 9] {
        let every =
            (0..64 * 7).map(place).map(|(item, right)| Loan { item, right, ..loan(3, 5, 2, 8) });
        let unit = lent_by(shift, every);
        for (on, right) in (0..64 * 7).map(place) {
            let granted = unit.clone().after(&[allow(0, 3, on, right, right)]);
            let due = clean(&granted, (3, on, right));
            assert!(due.loans[0] == shift * 65_536 + 447 && due.grants == unit.grants);
            leaves(&granted, withdraw(0, 3, on, right), &due);
            leaves(&granted, drop(0, 3, on, right, right), &due);
            changes_nothing(&granted, &[drop(0, 3, on, right, right ^ 1)]);
        }
    }
}

/// Loans to the person, on the person as an item, and by an item that the person has a grant on stay; a
/// loan of the person to itself ends.
#[test]
fn other_roles() {
    let itself = loan(3, 3, 1, 0);
    let others = [
        loan(4, 3, 1, 0),
        Loan { item: 3, ..loan(ON, 3, 1, 0) },
        Loan { item: 3, ..loan(3, ON, 1, 0) },
        loan(ON, 3, 1, 7),
        loan(RIGHT, ON, 3, 0),
    ];
    let unit = lent_by(2, others.into_iter().chain([itself]));
    let unit = unit.after(&[allow(0, 3, ON, RIGHT, 1)]);
    let mut left = others.map(|loan| word_of(&loan));
    left.sort();
    let due = Unit { loans: loans_of(2, &left), ..less(&unit, (3, ON, RIGHT), 255) };
    leaves(&unit, withdraw(0, 3, ON, RIGHT), &due);
    leaves(&unit, drop(0, 3, ON, RIGHT, 1), &due);
}

/// "loans further down stay": when 3 has lost the right, 4's loan to 5 and 5's to 10 stand and open
/// nothing. They carry again through 11, who lends to 4 out of its own grant of depth 4.
#[test]
fn further_down() {
    let mut unit = Unit::base().after(&[create(0, 10), create(0, 11), allow(0, 3, ON, RIGHT, 5)]);
    unit.give(0, &[lend(3, 4, ON, RIGHT, 7, 0), lend(4, 5, ON, RIGHT, 7, 0)]);
    unit.give(0, &[lend(5, 10, ON, RIGHT, 7, 0)]);
    unit.yes((10, ON, RIGHT), 2, &[3, 4, 5, 10]);
    let due = clean(&unit, (3, ON, RIGHT));
    assert_eq!((unit.loans[0], due.loans[0]), (5, 3));
    leaves(&unit, withdraw(0, 3, ON, RIGHT), &due);
    unit.give(0, &[withdraw(0, 3, ON, RIGHT)]);
    (0..64).for_each(|who| unit.no((who, ON, RIGHT)));
    unit.give(0, &[allow(0, 11, ON, RIGHT, 4), lend(11, 4, ON, RIGHT, 6, 0)]);
    unit.yes((4, ON, RIGHT), 3, &[11, 4]);
    unit.yes((10, ON, RIGHT), 1, &[11, 4, 5, 10]);
    unit.no((3, ON, RIGHT));
    unit.give(0, &[allow(0, 3, ON, RIGHT, 7)]);
    unit.yes((4, ON, RIGHT), 3, &[11, 4]);
    unit.yes((10, ON, RIGHT), 1, &[11, 4, 5, 10]);
}

/// Of the grants that person's alone end: 4 and 5, to whom 3 has lent, keep theirs and what they have lent
/// out of them.
#[test]
fn grants_of_borrowers() {
    let grants = [allow(0, 4, ON, RIGHT, 3), allow(0, 5, ON, RIGHT, 0), allow(0, 4, ON, 0, 6)];
    let unit = Unit::base().after(&grants).after(&[lend(3, 5, ON, RIGHT, 1, 0)]);
    let due = clean(&unit, (3, ON, RIGHT));
    assert_eq!((due.grants[byte((4, ON, RIGHT))], due.grants[byte((5, ON, RIGHT))]), (1 << 3, 1));
    leaves(&unit, withdraw(0, 3, ON, RIGHT), &due);
    leaves(&unit, drop(4, 3, ON, RIGHT, 2), &due);
    due.yes((4, ON, RIGHT), 3, &[4]);
    due.yes((5, ON, RIGHT), 0, &[5]);
}

/// A person may withdraw its own right, and its loans end as by another; with its edit grant none ends.
#[test]
fn own_right() {
    let mut unit = Unit::base().after(&[allow(0, 3, ON, 0, 0), lend(3, 5, ON, RIGHT, 1, 4)]);
    leaves(&unit, withdraw(3, 3, ON, RIGHT), &clean(&unit, (3, ON, RIGHT)));
    leaves(&unit, drop(3, 3, ON, RIGHT, 2), &clean(&unit, (3, ON, RIGHT)));
    let due = less(&unit, (3, ON, 0), 1);
    leaves(&unit, withdraw(3, 3, ON, 0), &due);
    leaves(&unit, drop(3, 3, ON, 0, 0), &due);
    unit.give(0, &[withdraw(3, 3, ON, 0)]);
    unit.give(8, &[withdraw(3, 3, ON, RIGHT), drop(3, 3, ON, RIGHT, 2)]);
    unit.yes((5, ON, RIGHT), 1, &[3, 5]);
}

/// "carry no right 0": an edit grant has no loans. 3's, of every other right on 9 and with item 9 as the
/// borrower too, stay when its edit grants end there, one depth after another and at once.
#[test]
fn edit_right() {
    let every = (0..7 * 64).map(|n| Loan { right: n % 7 + 1, ..loan(3, n / 7, n % 8, 0) });
    let unit = lent_by(1, every).after(&[allow(0, 3, ON, 0, 0), allow(0, 3, ON, 0, 5)]);
    leaves(&unit, withdraw(0, 3, ON, 0), &less(&unit, (3, ON, 0), 255));
    let one = less(&unit, (3, ON, 0), 1);
    leaves(&unit, drop(0, 3, ON, 0, 0), &one);
    leaves(&one, drop(0, 3, ON, 0, 5), &less(&unit, (3, ON, 0), 255));
}

/// 3, 4, 5 and 8 for withdraw and drop: "all unchanged", where each would end the lender's loans if it
/// were accepted.
#[test]
fn refused() {
    let mut unit = lent_by_3().after(&[allow(0, 3, ON, RIGHT, 2)]);
    let last = |by, to, on, right| [withdraw(by, to, on, right), drop(by, to, on, right, 2)];
    unit.give(
        3,
        &[drop(0, 3, ON, RIGHT, 8), drop(0, 3, ON, RIGHT, 10), drop(0, 3, ON, RIGHT, 258)],
    );
    for beyond in [64, 67, 73, 256, u32::MAX] {
        unit.give(3, &last(beyond, 3, ON, RIGHT));
        unit.give(3, &last(0, beyond, ON, RIGHT));
        unit.give(3, &last(0, 3, beyond, RIGHT));
        unit.give(3, &last(0, 3, ON, beyond));
    }
    unit.give(3, &last(0, 3, ON, RIGHT + 8));
    unit.give(4, &last(60, 3, ON, RIGHT));
    unit.give(5, &last(0, 60, ON, RIGHT));
    unit.give(5, &last(0, 3, 60, RIGHT));
    unit.give(8, &last(4, 3, ON, RIGHT));
    unit.give(8, &last(5, 3, ON, RIGHT));
    unit.give(0, &[allow(0, 3, ON, 2, 2), withdraw(3, 0, ON, 0)]);
    unit.give(8, &last(0, 3, ON, RIGHT));
    assert_eq!(unit.loans[0], 6 * 65_536 + 5);
    leaves(&unit, withdraw(3, 3, ON, RIGHT), &clean(&unit, (3, ON, RIGHT)));
}

/// 1 and 2: of wrong lengths, and of images that are not in order, "all unchanged".
#[test]
fn no_image() {
    let good = lent_by_3().after(&[allow(0, 3, ON, RIGHT, 2)]);
    let commands = [withdraw(0, 3, ON, RIGHT), drop(0, 3, ON, RIGHT, 2), drop(0, 64, ON, RIGHT, 2)];
    let damages: [fn(&mut Unit); 9] = [
        |unit| unit.grants[0] &= !1,
        |unit| unit.grants[0] &= !(1 << 5),
        |unit| unit.grants[byte((60, ON, RIGHT))] = 1,
        |unit| unit.loans[0] -= 1,
        |unit| unit.loans[0] += 1,
        |unit| unit.loans[0] += 256 * 65_536,
        |unit| unit.loans.swap(1, 2),
        |unit| unit.loans[1024] = 1,
        |unit| unit.loans[1] &= !(7 << 9),
    ];
    for damage in damages {
        let mut unit = good.clone();
        damage(&mut unit);
        unit.give(2, &commands);
        unit.loans.push(0);
        unit.give(1, &commands);
    }
    for (grants, loans) in [(32_775, 1025), (32_776, 1024), (32_777, 1025), (32_776, 1026), (0, 0)]
    {
        let mut unit = good.clone();
        unit.grants.resize(grants, 0);
        unit.loans.resize(loans, 0);
        unit.give(1, &commands);
    }
}

/// 10 while 1,024 loans stand, and no longer when a lender's have ended: as many as these were fit.
#[test]
fn room_again() {
    let mut unit = full_of_all().after(&[allow(0, 7, ON, RIGHT, 0), allow(0, 7, ON, RIGHT, 3)]);
    let more = |n: u32| lend(8, 10 + n, ON, RIGHT, 0, 0);
    unit.give(10, &[more(0), lend(7, 10, ON, RIGHT, 0, 0)]);
    unit.give(0, &[withdraw(0, 8, ON, RIGHT), drop(0, 7, ON, RIGHT, 3)]);
    unit.give(10, &[more(0)]);
    unit.give(0, &[drop(0, 7, ON, RIGHT, 0)]);
    (0..16).for_each(|n| unit.give(0, &[more(n)]));
    unit.give(10, &[more(16)]);
    assert_eq!(unit.loans[0], 6 * 65_536 + 1024);
}

/// 12 while a loan with a last shift stands, past ones too: the shift may start again lower when a
/// withdraw has ended the last of them, and not while another's or one of another right stands.
#[test]
fn shift_starts_again() {
    let mut unit = lent_by_3().after(&[allow(0, 3, ON, RIGHT, 2), lend(3, 4, ON, 2, 0, 6)]);
    unit.give(0, &[lend(4, 5, ON, RIGHT, 3, 7)]);
    unit.give(12, &[shift(0, 5)]);
    unit.give(0, &[withdraw(0, 3, ON, RIGHT)]);
    unit.give(12, &[shift(0, 5)]);
    unit.give(0, &[recall(4, 5, ON, RIGHT, 3, 7)]);
    unit.give(12, &[shift(0, 5)]);
    assert_eq!(unit.loans[0], 6 * 65_536 + 3);
    unit.give(0, &[drop(0, 3, ON, 2, 2)]);
    assert_eq!(unit.loans[..4], [6 * 65_536 + 2, 1_085_982, 1_085_992, 0]);
    unit.give(0, &[shift(0, 5), shift(0, 0)]);
    assert_eq!(unit.loans[0], 2);
}

/// delete "keeps its own rule": when an editor goes, its grants end with it, and what others lent stays.
#[test]
fn delete_of_another() {
    let mut unit = Unit::base().after(&[create(0, 10), allow(0, 10, ON, RIGHT, 7)]);
    let loans = unit.loans.clone();
    unit.give(0, &[delete(0, 10)]);
    assert!(unit.loans == loans);
    unit.give(0, &[delete(0, 3)]);
    assert!(unit.loans == loans_of(0, &[1_085_992]));
}

/// What the check says of each person on the item and right: its depth, nothing on no.
fn answers(unit: &Unit, on: u32, right: u32) -> Vec<Option<u32>> {
    let check = |who| check_chains(&unit.grants, &unit.loans, (who, on, right), &mut [7; 8]);
    let depth = |who| Some(check(who)).filter(|checked| checked.persons > 0).map(|c| c.depth);
    (0..64).map(depth).collect()
}

/// All items, and random grants and loans of eight persons on two items and of two rights, some past.
fn random_state(random: &mut Random) -> Unit {
    let place =
        |random: &mut Random| (random.below(8), random.pick(&[ON, 10]), 1 + random.below(2));
    let mut unit = lent_by(3, []);
    for _ in 0..20 {
        let (to, on, right) = place(random);
        unit.give(0, &[allow(0, to, on, right, random.below(8))]);
    }
    let loans: BTreeSet<u32> = (0..random.below(40))
        .map(|_| {
            let (lender, item, right) = place(random);
            let (borrower, depth) = (random.below(64) % 10, random.below(8));
            let last = random.pick(&[0, 0, 2, 3, 4]);
            word_of(&Loan { lender, item, right, borrower, depth, last })
        })
        .collect();
    unit.loans = loans_of(3, &loans.into_iter().collect::<Vec<u32>>());
    unit
}

/// Nobody goes from no to yes by a withdraw or a drop, nor to a greater depth; of another item or right
/// no answer changes. "a right given back starts clean": after the new allow the person has the right,
/// and the others have what they had before it.
#[test]
fn nobody_gains() {
    let mut random = Random::new(5);
    let (mut ended, mut lost) = (0, 0);
    for _ in 0..400 {
        let unit = random_state(&mut random);
        let (to, on, right) = (random.below(8), random.pick(&[ON, 10]), 1 + random.below(2));
        let held = unit.grants[byte((to, on, right))];
        let one_depth = drop(0, to, on, right, held.trailing_zeros() % 8);
        let command = random.pick(&[withdraw(0, to, on, right), one_depth]);
        let after = unit.clone().after(&[command]);
        let (had, has) = (answers(&unit, on, right), answers(&after, on, right));
        assert!(had.iter().zip(&has).all(|(before, after)| after <= before), "{command:?}");
        for (on, right) in [(on, 3 - right), (19 - on, right), (19 - on, 3 - right)] {
            assert_eq!(answers(&unit, on, right), answers(&after, on, right), "{command:?}");
        }
        if held != 0 && after.grants[byte((to, on, right))] == 0 {
            let mut again = answers(&after.after(&[allow(0, to, on, right, 7)]), on, right);
            assert_eq!(std::mem::replace(&mut again[to as usize], has[to as usize]), Some(7));
            assert_eq!(again, has, "allowed again after {command:?}");
            ended += 1;
            lost += u32::from((0..64).any(|who| who != to as usize && had[who] > has[who]));
        }
    }
    assert!(ended > 100 && lost > 20, "{ended}, {lost}");
}
