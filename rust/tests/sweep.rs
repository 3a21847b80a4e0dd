//! The command sweep of the chain unit on fixed calls. Every expected value is worked out from requests
//! K8, K1 and K7 of document 02 and from document 01; what stands in quotation marks is their text. After
//! each sweep every byte of both images is compared.

mod engine;
mod images;
mod model;
mod unit;

use engine::{check_chains, give_chains, Flat};
use images::Images;
use model::commands::{allow, create, delete, drop, lend, recall, shift, sweep, withdraw};
use model::{Command, Journal, ListLayout, RowLayout};
use rights::lent;
use rights::lent::chains::Checked;
use unit::{Question, Unit};

/// The drawer and the right of most loans here.
const ON: u32 = 9;
const RIGHT: u32 = 1;

/// The base's two loans, from 3 to 4 at depth 1 and from 4 to 5 at depth 0, as words. Both are
/// open-ended.
const BASE_LOANS: [u32; 2] = [823_841, 1_085_992];

/// The word of a loan of right 1 on 9 from 3 to 4 at depth 0: the paper's 823,840, with a last shift.
const fn word(last: u32) -> u32 {
    (last << 24) + 823_840
}

/// A loans image: "shift·2^16 + count", the words, "all later words 0".
fn loans_of(shift: u32, words: &[u32]) -> Vec<u32> {
    let mut image = vec![(shift << 16) + words.len() as u32];
    image.extend(words);
    image.resize(1025, 0);
    image
}

/// The base in that shift with these loans, rising, in the place of its own.
fn with_loans(shift: u32, words: &[u32]) -> Unit {
    let unit = Unit { loans: loans_of(shift, words), ..Unit::base() };
    assert_eq!(lent::chains::inspect(&unit.grants, &unit.loans), 0, "the loans are in order");
    unit
}

/// The sweep is accepted, ends so many and leaves just these loans in their order, and the grants as they
/// were; "a second sweep counts 0" and changes nothing.
#[track_caller]
fn leaves(unit: &Unit, by: u32, count: u32, left: &[u32]) -> Unit {
    let mut swept = unit.clone();
    let given = give_chains(&mut swept.grants, &mut swept.loans, sweep(by));
    assert_eq!(given, (0, count), "sweep by {by}");
    assert!(swept.grants == unit.grants, "the grants changed");
    assert!(swept.loans == loans_of(unit.loans[0] >> 16, left), "{:?}", &swept.loans[..8]);
    assert_eq!(unit.loans[0] - swept.loans[0], count, "loans before = loans after + that count");
    assert_eq!(lent::chains::inspect(&swept.grants, &swept.loans), 0, "not in order");
    let once = swept.clone();
    swept.give(0, &[sweep(by)]);
    assert!(swept == once, "changed by a second sweep");
    once
}

/// "ends all loans past their last shift": in shift 6 those with last shifts 1 to 5. A loan in its last
/// shift stays, and so does one with a later one or none.
#[test]
fn ends_the_past_ones() {
    let [one, two] = BASE_LOANS;
    let words = [one, two, word(1), word(4), word(5), word(6), word(7), word(255)];
    let left = [one, two, word(6), word(7), word(255)];
    leaves(&with_loans(6, &words), 0, 3, &left);
}

/// "closes the gaps": past loans of every lender, item, right, borrower and depth end; what stays keeps
/// its order. In shift 200 the last shifts 1, 127, 128 and 199 are past; 200, 201 and 255 are not.
#[test]
fn whatever_they_name() {
    let places =
        [(3, 9, 1, 4, 0), (4, 9, 1, 3, 7), (0, 0, 7, 0, 3), (5, 3, 2, 5, 1), (9, 9, 4, 9, 6)];
    let word = |(lender, on, right, borrower, depth): (u32, u32, u32, u32, u32), last: u32| {
        (last << 24) + (lender << 18) + (on << 12) + (right << 9) + (borrower << 3) + depth
    };
    let of = |lasts: &[u32]| {
        let every = lasts.iter().flat_map(|&last| places.map(|place| word(place, last)));
        let mut words: Vec<u32> = every.collect();
        words.sort();
        words
    };
    let unit = with_loans(200, &of(&[0, 1, 127, 128, 199, 200, 201, 255]));
    leaves(&unit, 4, 20, &of(&[0, 200, 201, 255]));
    // Each of them alone, beside one that stays.
    for place in places {
        let unit = with_loans(200, &[word((5, 9, 7, 5, 7), 0), word(place, 199)]);
        leaves(&unit, 0, 1, &[word((5, 9, 7, 5, 7), 0)]);
    }
}

/// Past: last set and below the shift. Each last shift about the present one, at both ends: in shift 0
/// nothing is past, in shift 255 all but 255.
#[test]
fn boundaries() {
    for shift in [0, 1, 2, 3, 127, 128, 129, 254, 255] {
        for last in
            [1, 2, 126, 127, 128, 129, 253, 254, 255, shift - shift.min(1), shift, shift + 1]
        {
            if last == 0 || last > 255 {
                continue;
            }
            let past = last < shift;
            let [one, two] = BASE_LOANS;
            let left = if past { vec![one, two] } else { vec![one, two, word(last)] };
            let unit = with_loans(shift, &[one, two, word(last)]);
            leaves(&unit, 0, u32::from(past), &left);
            let alone = if past { vec![] } else { vec![word(last)] };
            leaves(&with_loans(shift, &[word(last)]), 0, u32::from(past), &alone);
        }
    }
}

/// Every last shift at once: in shift s the s - 1 below it end, 255 - s + 1 stay.
#[test]
fn every_shift() {
    let words: Vec<u32> = (1..=255).map(word).collect();
    for shift in 0..=255u32 {
        let ends = shift.saturating_sub(1);
        leaves(&with_loans(shift, &words), 0, ends, &words[ends as usize..]);
    }
}

/// None past: "returns how many there were", 0, and no byte changes: no loan at all, open-ended ones,
/// and last shifts that are the present one or later.
#[test]
fn none_past() {
    let [one, two] = BASE_LOANS;
    for shift in [0, 1, 6, 255] {
        leaves(&with_loans(shift, &[]), 0, 0, &[]);
        leaves(&with_loans(shift, &[one, two]), 0, 0, &[one, two]);
        let words = [one, word(shift.max(1)), word(255)];
        let words = if shift == 255 { &words[..2] } else { &words[..] };
        leaves(&with_loans(shift, words), 0, 0, words);
    }
    let full = Unit::full().after(&[shift(0, 255)]);
    let words = full.loans[1..].to_vec();
    leaves(&full, 0, 0, &words);
    let mut fresh = Unit::fresh();
    fresh.give(0, &[sweep(0)]);
    assert!(fresh == Unit::fresh());
}

/// The loans on 9, right 1 of `Unit::full`, from 16 lenders to 8 borrowers at 8 depths, each with the
/// last shift that its place gives it, in rising order.
fn full_words(last: impl Fn(u32) -> u32) -> Vec<u32> {
    let words = (0..1024).map(|n| {
        let (lender, borrower) = (n / 64, n / 8 % 8);
        (last(n) << 24) + (lender << 18) + (ON << 12) + (RIGHT << 9) + (borrower << 3) + n % 8
    });
    let mut words: Vec<u32> = words.collect();
    words.sort();
    words
}

/// The table of `Unit::full` with those last shifts, in that shift.
fn full(shift: u32, last: impl Fn(u32) -> u32) -> Unit {
    let unit = Unit { loans: loans_of(shift, &full_words(last)), ..Unit::full() };
    assert_eq!(lent::chains::inspect(&unit.grants, &unit.loans), 0, "the loans are in order");
    unit
}

/// All of 1,024 past: "all later words 0" and the shift stays, 9·65,536.
#[test]
fn all_past() {
    let unit = full(9, |n| 1 + n % 8);
    let left = leaves(&unit, 0, 1024, &[]);
    assert_eq!(left.loans[0], 589_824);
    assert!(left.loans[1..] == [0; 1024]);
    leaves(&full(255, |_| 254), 0, 1024, &[]);
    leaves(&full(2, |_| 1), 0, 1024, &[]);
}

/// Of a full table: every other loan, all but one, and just one, wherever it is among them.
#[test]
fn of_a_full_table() {
    let stay =
        |words: Vec<u32>| words.into_iter().filter(|word| word >> 24 != 5).collect::<Vec<_>>();
    for open_or_later in [0, 6, 7] {
        let every_other = |n: u32| if n % 2 == 0 { 5 } else { open_or_later };
        leaves(&full(6, every_other), 0, 512, &stay(full_words(every_other)));
        for at in [0, 1, 511, 512, 1022, 1023] {
            let one = |n: u32| if n == at { 5 } else { open_or_later };
            leaves(&full(6, one), 0, 1, &stay(full_words(one)));
            let all_but_one = |n: u32| if n == at { open_or_later } else { 5 };
            leaves(&full(6, all_but_one), 0, 1023, &stay(full_words(all_but_one)));
        }
    }
}

/// "Relief-heavy homes meet 10 with a table full of past shifts": 10, sweep, 0. After a sweep that counted
/// one, one lend fits and the next has 10 again; a past loan lent again has 13, full or not.
#[test]
fn room() {
    let mut unit = full(6, |n| if n == 700 { 5 } else { 0 });
    let new = [lend(15, 8, ON, RIGHT, 0, 0), lend(15, 8, ON, RIGHT, 1, 6)];
    unit.give(10, &new);
    // 700 is lender 10, borrower 7, depth 4.
    unit.give(13, &[lend(10, 7, ON, RIGHT, 4, 5)]);
    unit.swept(1);
    assert_eq!(unit.loans[0], (6 << 16) + 1023);
    unit.give(13, &[lend(10, 7, ON, RIGHT, 4, 5)]);
    unit.give(0, &new[..1]);
    unit.give(10, &new[1..]);
    unit.give(0, &[sweep(0)]);
    unit.give(10, &new[1..]);

    let mut past = full(6, |n| 1 + n % 5);
    past.give(10, &new);
    past.swept(1024);
    past.give(0, &new);
    assert_eq!(past.loans[0], (6 << 16) + 2);
}

/// A sweep that ends none leaves 10 what it was: loans in their last shift are not past.
#[test]
fn no_room() {
    let mut unit = full(6, |_| 6);
    unit.give(10, &[lend(15, 8, ON, RIGHT, 0, 0)]);
    unit.give(0, &[sweep(0)]);
    unit.give(10, &[lend(15, 8, ON, RIGHT, 0, 0)]);
    unit.give(0, &[shift(0, 7)]);
    unit.give(10, &[lend(15, 8, ON, RIGHT, 0, 0)]);
    unit.swept(1024);
    unit.give(0, &[lend(15, 8, ON, RIGHT, 0, 0)]);
}

/// "The shift may start again lower once no loan with a last shift stands": 12 before the sweep, 0 after;
/// a loan in its last shift, which stays, keeps it at 12.
#[test]
fn shift_back() {
    let [one, two] = BASE_LOANS;
    let mut unit = with_loans(6, &[one, two, word(5)]);
    unit.give(12, &[shift(0, 5), shift(0, 0)]);
    unit.swept(1);
    unit.give(0, &[shift(0, 5), shift(0, 0), lend(3, 4, ON, RIGHT, 0, 1)]);
    assert!(unit.loans == loans_of(0, &[one, two, word(1)]));

    let mut unit = with_loans(6, &[one, two, word(5), word(6)]);
    unit.give(12, &[shift(0, 5)]);
    unit.swept(1);
    unit.give(12, &[shift(0, 5)]);
    unit.give(0, &[shift(0, 7)]);
    unit.give(12, &[shift(0, 6)]);
    unit.swept(1);
    unit.give(0, &[shift(0, 6)]);
    assert!(unit.loans == loans_of(6, &[one, two]));
}

/// In the base with a past loan, 7 is dead: "sweep by a dead item (4), by 64 (3)". A refused sweep counts 0
/// and leaves every byte.
#[test]
fn refused() {
    let mut unit = with_loans(6, &[word(5)]);
    unit.give(4, &[sweep(7), sweep(1), sweep(63)]);
    for beyond in [64, 64 + 3, 128, 256, 256 + 3, 65_536, 1 << 31, u32::MAX] {
        unit.give(3, &[sweep(beyond)]);
    }
    unit.give(0, &[create(0, 63)]);
    leaves(&unit, 63, 1, &[]);
    unit.give(0, &[delete(0, 63)]);
    unit.give(4, &[sweep(63)]);
    assert!(unit == with_loans(6, &[word(5)]));
}

/// Any living item may sweep, badge or drawer: those with no edit grant, with no grant at all, and 0
/// once its own are dropped. Who is named by the loans does not count.
#[test]
fn by_any_living_item() {
    for by in [0, 3, 4, 5, 9] {
        leaves(&with_loans(6, &[word(5), word(6)]), by, 1, &[word(6)]);
    }
    let mut unit = with_loans(6, &[word(5)]).after(&[create(0, 63), withdraw(0, 0, 0, 0)]);
    unit.give(8, &[shift(0, 7), shift(63, 7)]);
    leaves(&unit, 0, 1, &[]);
    leaves(&unit, 63, 1, &[]);
    unit.give(0, &[drop(0, 0, 63, 0, 0)]);
    leaves(&unit, 63, 1, &[]);
}

/// Wrong lengths have 1 and images out of order 2, before 3 and 4: by a living item, a dead one and one
/// beyond the limit.
#[test]
fn wrong_images() {
    let unit = with_loans(6, &[word(5), word(6)]);
    let refuse = |number: u32, damage: &dyn Fn(&mut Unit)| {
        let mut wrong = unit.clone();
        damage(&mut wrong);
        wrong.give(number, &[sweep(0), sweep(7), sweep(64)]);
    };
    for length in [0, 1, 32_775, 32_777] {
        refuse(1, &|unit| unit.grants.resize(length, 0));
    }
    for length in [0, 1, 2, 1024, 1026] {
        refuse(1, &|unit| unit.loans.resize(length, 0));
    }
    refuse(1, &|unit| {
        unit.grants.pop();
        unit.loans[0] = 1025;
    });
    refuse(2, &|unit| unit.grants[0] &= !1);
    refuse(2, &|unit| unit.loans[0] = (6 << 16) + 3);
    refuse(2, &|unit| unit.loans[0] = (6 << 16) + 1);
    refuse(2, &|unit| unit.loans[0] = (256 << 16) + 2);
    refuse(2, &|unit| unit.loans[0] = (6 << 16) + 1025);
    refuse(2, &|unit| unit.loans.swap(1, 2));
    refuse(2, &|unit| unit.loans[2] = unit.loans[1]);
    refuse(2, &|unit| unit.loans[1] = (5 << 24) + (3 << 18) + (ON << 12) + (4 << 3));
    refuse(2, &|unit| unit.loans[1] = (5 << 24) + (7 << 18) + (ON << 12) + (RIGHT << 9) + (4 << 3));
    refuse(2, &|unit| unit.loans[1024] = 255 << 24);
}

/// Yes or no, depth and number of persons of every person on an item and right.
fn answers(unit: &Unit, on: u32, right: u32) -> Vec<Checked> {
    let ask = |who| check_chains(&unit.grants, &unit.loans, (who, on, right), &mut [7; 8]);
    (0..64).map(ask).collect()
}

/// The unit in another shift, all else equal.
fn in_shift(unit: &Unit, shift: u32) -> Unit {
    let mut other = unit.clone();
    other.loans[0] = (shift << 16) + (unit.loans[0] & 0xffff);
    assert_eq!(lent::chains::inspect(&other.grants, &other.loans), 0, "shift {shift}");
    other
}

/// Chains through past loans, carrying ones and open-ended ones, in shift 6: 3 has right 1 on 9 at depth 7
/// and lends it at several depths and last shifts, and so do those who have it from 3; of right 2 on 9 and
/// of right 7 on 10, which 3 has too, the loans of 3 are past.
fn chains_in_shift_6() -> Unit {
    let items: Vec<Command> = (10..=18).map(|on| create(0, on)).collect();
    let mut unit = Unit::base().after(&items);
    unit.give(0, &[allow(0, 3, ON, RIGHT, 7), allow(0, 5, ON, RIGHT, 0)]);
    unit.give(0, &[allow(0, 3, ON, 2, 7), allow(0, 3, 10, 7, 7)]);
    for (by, to, depth, last) in [
        (3, 4, 6, 5),
        (3, 4, 4, 6),
        (3, 4, 2, 8),
        (4, 5, 5, 4),
        (4, 5, 3, 7),
        (5, 3, 7, 5),
        (3, 10, 6, 3),
        (4, 10, 2, 9),
        (10, 11, 7, 6),
        (10, 11, 1, 0),
        (11, 12, 7, 5),
        (11, 13, 7, 255),
        (13, 14, 0, 10),
    ] {
        unit.give(0, &[lend(by, to, ON, RIGHT, depth, last)]);
    }
    unit.give(0, &[lend(3, 4, ON, 2, 3, 5), lend(4, 15, ON, 2, 3, 0), lend(3, 16, 10, 7, 2, 1)]);
    unit.after(&[shift(0, 6)])
}

/// "no check with all else equal, at this shift number or a higher one, changes its yes, no or depth",
/// and with K7 nor its number of persons: every person, item and right in shift 6, and every person on
/// every item and right that a loan is of in each later shift. Seven are past: of right 1 those of depth 5
/// to 7 with last shifts 3, 4 and 5, which are five; that with 5 of right 2; that with 1 of right 7.
#[test]
fn checks_stay() {
    let unit = chains_in_shift_6();
    let mut swept = unit.clone();
    swept.swept(7);
    for key in 0..64 * 8 {
        assert_eq!(answers(&swept, key / 8, key % 8), answers(&unit, key / 8, key % 8), "{key}");
    }
    for now in 6..=255 {
        let (before, after) = (in_shift(&unit, now), in_shift(&swept, now));
        for (on, right) in [(ON, RIGHT), (ON, 2), (10, 7)] {
            assert_eq!(answers(&after, on, right), answers(&before, on, right), "shift {now}");
        }
    }
}

/// What those checks are. 4 has depth 4 by 3's loan with last shift 6, then 2 by that with 8, then 1 by
/// the base's. 5 has one less than 4, by 4's loan of depth 3 with last shift 7; from shift 8 on its own
/// grant of 0, which is fewer persons than the base's loan of 0. 13 has what is left of 4's depth after 10
/// and 11. Past loans alone would give 12 right 1, 4 and 15 right 2, and 16 right 7 on 10.
#[test]
fn answers_about_the_sweep() {
    let unit = chains_in_shift_6();
    let mut swept = unit.clone();
    swept.swept(7);
    for unit in [&unit, &swept] {
        let yes = |now: u32, question: Question, depth: u32, persons: &[u8]| {
            in_shift(unit, now).yes(question, depth, persons);
        };
        yes(6, (4, ON, RIGHT), 4, &[3, 4]);
        yes(7, (4, ON, RIGHT), 2, &[3, 4]);
        yes(8, (4, ON, RIGHT), 2, &[3, 4]);
        yes(9, (4, ON, RIGHT), 1, &[3, 4]);
        yes(6, (5, ON, RIGHT), 3, &[3, 4, 5]);
        yes(7, (5, ON, RIGHT), 1, &[3, 4, 5]);
        yes(8, (5, ON, RIGHT), 0, &[5]);
        yes(255, (5, ON, RIGHT), 0, &[5]);
        yes(6, (13, ON, RIGHT), 0, &[3, 4, 10, 11, 13]);
        for question in [(12, ON, RIGHT), (4, ON, 2), (15, ON, 2), (16, 10, 7)] {
            in_shift(unit, 6).no(question);
        }
    }
}

/// A past loan that is lent again after the sweep, for the present shift, is another loan and carries.
#[test]
fn lent_again() {
    let mut unit = with_loans(6, &[word(5)]);
    unit.no((4, ON, RIGHT));
    unit.swept(1);
    unit.give(13, &[lend(3, 4, ON, RIGHT, 0, 5)]);
    unit.give(0, &[lend(3, 4, ON, RIGHT, 0, 6)]);
    unit.yes((4, ON, RIGHT), 0, &[3, 4]);
    unit.give(0, &[sweep(0), recall(3, 4, ON, RIGHT, 0, 5)]);
    unit.yes((4, ON, RIGHT), 0, &[3, 4]);
    assert!(unit.loans == loans_of(6, &[word(6)]));
}

/// The same loan with several last shifts is as many loans: each is judged by its own.
#[test]
fn same_loan_with_other_last_shifts() {
    let words = [word(0), word(2), word(3), word(4)];
    leaves(&with_loans(3, &words), 0, 1, &[word(0), word(3), word(4)]);
    leaves(&with_loans(4, &words), 0, 2, &[word(0), word(4)]);
    leaves(&with_loans(5, &words), 0, 3, &[word(0)]);
}

/// "lists and rows pass it over": a list with sweeps leaves them what it leaves without, and the journal's
/// sweep is the chain unit's.
#[test]
fn lists_and_rows() {
    let (mut images, mut journal) = (Images::fresh(), Journal::fresh());
    let commands = [
        create(0, 3),
        create(0, 4),
        create(3, 9),
        allow(3, 4, 9, 1, 2),
        lend(3, 4, 9, 1, 1, 5),
        lend(4, 3, 9, 1, 1, 6),
        lend(4, 3, 9, 1, 1, 0),
        shift(0, 6),
    ];
    for command in commands {
        assert_eq!(journal.give(command), (0, 0), "{command:?}");
        images.give(command, 0);
    }
    images.compare(&Images::of(&journal));
    assert_eq!(ListLayout::give(&mut images.lists, sweep(0)), None);
    assert_eq!(RowLayout::give(&mut images.rows, sweep(0)), None);
    assert_eq!(journal.give(sweep(4)), (0, 1));
    assert_eq!(give_chains(&mut images.grants, &mut images.loans, sweep(4)), (0, 1));
    images.compare(&Images::of(&journal));
    for (by, number) in [(5, 4), (64, 3), (4, 0)] {
        assert_eq!(journal.give(sweep(by)), (number, 0), "by {by}");
        images.give(sweep(by), number);
        images.compare(&Images::of(&journal));
    }
}

/// The story: a home lends eight times a night for that shift and never calls in. The table is full of past
/// shifts, and the 1,025th loan has 10; one command, and there is room. The loans of this night stay.
#[test]
fn a_home_with_much_relief() {
    let mut unit = Unit::base();
    for night in 1..=128u32 {
        unit.give(0, &[shift(0, night)]);
        let loans = (0..8).map(|n| lend(3, 4, 3 + n % 3, 1 + n % 7, n, night));
        let fits = if night == 128 { 6 } else { 8 };
        unit.give(0, &loans.clone().take(fits).collect::<Vec<Command>>());
        unit.give(if night == 128 { 10 } else { 0 }, &loans.skip(fits).collect::<Vec<Command>>());
    }
    // The base's two, and eight of each of 127 nights, and six.
    assert_eq!(unit.loans[0], (128 << 16) + 1024);
    unit.swept(127 * 8);
    assert_eq!(unit.loans[0], (128 << 16) + 8);
    unit.give(0, &[lend(3, 4, 3, 7, 6, 128), lend(3, 4, 4, 1, 7, 128)]);
    unit.yes((5, ON, RIGHT), 0, &[3, 4, 5]);
}
