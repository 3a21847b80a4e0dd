//! The chain unit on fixed calls, with every byte of the chain buffer after a check. Every expected
//! value is worked out from document 01, its loans open-ended, and E5's from K5 of document 02; what
//! stands in quotation marks is their text.

mod engine;
mod model;
mod unit;

use model::commands::{allow, create, delete, lend, recall, withdraw};
use model::{word_of, Command, Grant, GrantLayout, Layout, Loan};
use unit::Unit;

/// "Fresh: item 0 lives, and one grant stands, to 0 on 0, right 0, depth 0." "A question about dead
/// items is answered no."
#[test]
fn fresh() {
    let unit = Unit::fresh();
    unit.yes((0, 0, 0), 0, &[0]);
    unit.no((0, 0, 1));
    unit.no((1, 0, 0));
    for beyond in [(64, 0, 0), (0, 64, 0), (0, 0, 8)] {
        unit.refuse_check(beyond, 8, 3);
    }
}

/// The base's images: the live items; the edit grant of a create, "grant (by, on, 0, 0)", and the
/// grant allowed at depth 2; the loans, the first of them one deeper than the paper's 823,840.
#[test]
fn base_images() {
    let Unit { grants, loans } = Unit::base();
    assert_eq!(grants[..8], [1 << 0 | 1 << 3 | 1 << 4 | 1 << 5, 1 << 1, 0, 0, 0, 0, 0, 0]);
    assert_eq!((grants[8 + 512 * 9], grants[8 + 512 * 9 + 64 + 3]), (1 << 0, 1 << 2));
    assert_eq!(loans[..4], [2, 823_841, 1_085_992, 0]);
}

/// "E1 check 5: yes, 0, via 3,4,5. E2 check 4: yes, 1. E3 check 0: no." "E4 3 recalls 4 at depth 0:
/// 0, and 4 keeps depth 1."
#[test]
fn handover_e1_to_e4() {
    let mut unit = Unit::base();
    unit.yes((5, 9, 1), 0, &[3, 4, 5]);
    unit.yes((4, 9, 1), 1, &[3, 4]);
    unit.no((0, 9, 1));
    unit.yes((3, 9, 1), 2, &[3]);
    unit.give(0, &[recall(3, 4, 9, 1, 0, 0)]);
    unit.yes((4, 9, 1), 1, &[3, 4]);
}

/// "E5 withdraw 3: 5 no. Then allow 3 depth 1", and by K5 "after the new allow, 4 is no", and 5. "E6 3
/// lends 5 depth 5: 5 yes at 1, via 3,5." "E7 delete and create 4: 4 no."
#[test]
fn handover_e5_to_e7() {
    let mut e5 = Unit::base().after(&[withdraw(0, 3, 9, 1)]);
    e5.no((5, 9, 1));
    e5.give(0, &[allow(0, 3, 9, 1, 1)]);
    e5.yes((3, 9, 1), 1, &[3]);
    e5.no((4, 9, 1));
    e5.no((5, 9, 1));
    let e6 = Unit::base().after(&[lend(3, 5, 9, 1, 5, 0)]);
    e6.yes((5, 9, 1), 1, &[3, 5]);
    let mut e7 = Unit::base().after(&[delete(0, 4)]);
    e7.no((4, 9, 1));
    e7.give(0, &[create(0, 4)]);
    e7.no((4, 9, 1));
    e7.no((5, 9, 1));
}

/// "ai is the smaller of a(i-1) - 1 and ei, and a(i-1) must be at least 1." A loan stands "also
/// where the lender holds nothing yet", and of the depths granted the greatest counts.
#[test]
fn depths() {
    let mut unit = Unit::base().after(&[allow(0, 3, 9, 2, 3), lend(3, 4, 9, 2, 0, 0)]);
    unit.yes((4, 9, 2), 0, &[3, 4]);
    unit.give(0, &[lend(4, 5, 9, 2, 7, 0)]);
    unit.no((5, 9, 2));
    unit.give(0, &[lend(4, 5, 9, 7, 3, 0)]);
    unit.no((5, 9, 7));
    unit.give(0, &[allow(0, 4, 9, 7, 1)]);
    unit.yes((5, 9, 7), 0, &[4, 5]);
    unit.give(0, &[allow(0, 4, 9, 7, 3)]);
    unit.yes((5, 9, 7), 2, &[4, 5]);
    unit.yes((4, 9, 7), 3, &[4]);
}

/// The base, and loans of right 3 to 5 from 1 and 6, who hold nothing.
fn dead_ends() -> Unit {
    let items = [create(0, 1), create(0, 6)];
    Unit::base().after(&items).after(&[lend(1, 5, 9, 3, 7, 0), lend(6, 5, 9, 3, 7, 0)])
}

/// A wrong turn: "Walking back from the person by the first loan found and saying no at its dead
/// end."
#[test]
fn chain_beside_dead_ends() {
    let mut unit = dead_ends();
    unit.no((5, 9, 3));
    unit.give(0, &[allow(0, 3, 9, 3, 1), lend(3, 5, 9, 3, 0, 0)]);
    unit.yes((5, 9, 3), 0, &[3, 5]);
}

/// "The check says yes exactly when a chain exists, with the greatest last allowance of any", here
/// that of a longer chain.
#[test]
fn longer_chain_ends_with_more() {
    let mut unit = dead_ends().after(&[allow(0, 3, 9, 3, 1), lend(3, 5, 9, 3, 0, 0)]);
    unit.give(0, &[allow(0, 3, 9, 4, 1), lend(3, 5, 9, 4, 7, 0)]);
    unit.yes((5, 9, 4), 0, &[3, 5]);
    unit.give(0, &[allow(0, 4, 9, 4, 7), lend(4, 6, 9, 4, 7, 0), lend(6, 5, 9, 4, 5, 0)]);
    unit.yes((5, 9, 4), 5, &[4, 6, 5]);
    unit.yes((6, 9, 4), 6, &[4, 6]);
}

/// Each loan takes 1 from the allowance, so a chain with a cycle ends with less; and a loan to
/// oneself gives nothing without a grant.
#[test]
fn cycles() {
    let mut unit = Unit::base().after(&[allow(0, 3, 9, 6, 3), lend(3, 3, 9, 6, 7, 0)]);
    unit.yes((3, 9, 6), 3, &[3]);
    unit.give(0, &[lend(3, 4, 9, 6, 7, 0), lend(4, 3, 9, 6, 7, 0)]);
    unit.yes((4, 9, 6), 2, &[3, 4]);
    unit.yes((3, 9, 6), 3, &[3]);
    unit.give(0, &[lend(5, 5, 9, 6, 7, 0)]);
    unit.no((5, 9, 6));
}

/// The base, and persons 10 to 18, each but the last with a loan of depth 7 to the next.
fn line_of_loans() -> Unit {
    let items: Vec<Command> = (10..=18).map(|on| create(0, on)).collect();
    let loans: Vec<Command> = (10..18).map(|by| lend(by, by + 1, 9, 5, 7, 0)).collect();
    Unit::base().after(&items).after(&loans)
}

/// "number of persons, 1 to 8": depth 7 is used up after seven loans.
#[test]
fn eight_persons() {
    let mut unit = line_of_loans();
    unit.no((17, 9, 5));
    unit.give(0, &[allow(0, 10, 9, 5, 7)]);
    unit.yes((10, 9, 5), 7, &[10]);
    unit.yes((16, 9, 5), 1, &[10, 11, 12, 13, 14, 15, 16]);
    unit.yes((17, 9, 5), 0, &[10, 11, 12, 13, 14, 15, 16, 17]);
    unit.no((18, 9, 5));
}

/// "just that loan of by ends, if it stands."
#[test]
fn recall_in_a_chain() {
    let mut unit = line_of_loans().after(&[allow(0, 10, 9, 5, 7)]);
    unit.give(0, &[recall(13, 14, 9, 5, 6, 0)]);
    unit.yes((17, 9, 5), 0, &[10, 11, 12, 13, 14, 15, 16, 17]);
    unit.give(0, &[recall(13, 14, 9, 5, 7, 0)]);
    unit.no((17, 9, 5));
    unit.yes((13, 9, 5), 4, &[10, 11, 12, 13]);
}

/// "The lowest number that applies is given": each of these breaks a later row of the table too,
/// where there is one.
#[test]
fn numbers_without_loans() {
    let mut unit = Unit::base();
    unit.give(3, &[create(50, 64), delete(64, 0)]);
    unit.give(3, &[allow(50, 3, 9, 1, 8), allow(50, 3, 9, 8, 0), withdraw(50, 3, 9, 8)]);
    unit.give(4, &[create(50, 3), delete(50, 0), allow(50, 3, 9, 1, 0), withdraw(50, 3, 9, 1)]);
    unit.give(5, &[delete(3, 50), allow(3, 50, 9, 1, 0), allow(3, 4, 50, 1, 0)]);
    unit.give(5, &[withdraw(3, 50, 9, 1), withdraw(3, 3, 50, 1)]);
    unit.give(6, &[create(3, 3)]);
    unit.give(7, &[delete(3, 0)]);
    unit.give(8, &[delete(3, 4), allow(3, 4, 9, 1, 0), withdraw(3, 3, 9, 1)]);
    unit.yes((5, 9, 1), 0, &[3, 4, 5]);
}

/// "lend: right 0" is refused with 9, and no recall is; a recall of a loan that does not stand
/// changes nothing.
#[test]
fn numbers_of_loans() {
    let mut unit = Unit::base();
    unit.give(3, &[lend(50, 64, 9, 0, 0, 0), lend(50, 4, 9, 0, 8, 0), lend(50, 4, 9, 8, 0, 0)]);
    unit.give(3, &[recall(50, 64, 9, 1, 0, 0), recall(50, 4, 9, 1, 8, 0)]);
    unit.give(4, &[lend(50, 4, 9, 0, 0, 0), recall(50, 4, 9, 1, 0, 0)]);
    unit.give(5, &[lend(3, 50, 9, 0, 0, 0), lend(3, 4, 50, 0, 0, 0)]);
    unit.give(5, &[recall(3, 50, 9, 1, 0, 0), recall(3, 4, 50, 1, 0, 0)]);
    unit.give(9, &[lend(3, 4, 9, 0, 0, 0)]);
    unit.give(0, &[recall(3, 4, 9, 0, 0, 0), recall(3, 5, 9, 1, 0, 0)]);
    unit.yes((5, 9, 1), 0, &[3, 4, 5]);
    assert!(unit == Unit::base(), "changed by a recall of no loan");
}

/// "E13 the 1,024th loan: 0; one more: 10; a standing one again: 0." 9 comes before 10, and a loan
/// fits again when one has ended.
#[test]
fn full_e13() {
    let mut unit = Unit::full();
    unit.give(10, &[lend(15, 8, 9, 1, 0, 0)]);
    unit.give(0, &[allow(0, 15, 9, 1, 7)]);
    unit.give(10, &[lend(0, 8, 9, 1, 0, 0), lend(15, 8, 9, 2, 0, 0)]);
    unit.give(0, &[lend(15, 7, 9, 1, 7, 0)]);
    unit.give(9, &[lend(0, 8, 9, 0, 0, 0)]);
    unit.yes((7, 9, 1), 6, &[15, 7]);
    unit.no((8, 9, 1));
    unit.give(0, &[recall(0, 0, 9, 1, 0, 0), lend(15, 8, 9, 1, 6, 0)]);
    unit.yes((8, 9, 1), 6, &[15, 8]);
    unit.give(10, &[lend(0, 0, 9, 1, 0, 0)]);
    unit.give(0, &[delete(0, 15)]);
    unit.no((8, 9, 1));
    unit.give(0, &[lend(0, 0, 9, 1, 0, 0)]);
}

/// 1 comes before 2 and 3: a buffer of zeros is not in order, and calls name item 64.
#[test]
fn wrong_lengths() {
    let short_grants = Unit { grants: vec![0; 32_775], ..Unit::base() };
    let long_loans = Unit { loans: vec![0; 1026], ..Unit::base() };
    for (what, unit) in [("short grants", short_grants), ("long loans", long_loans)] {
        unit.refuse(1, what);
        let mut left = unit.clone();
        left.make_fresh(1);
        assert!(left == unit, "a refused fresh");
    }
}

/// "a lent buffer of 8 bytes": 7 and 9 are refused.
#[test]
fn wrong_chain_buffer() {
    let unit = Unit::base();
    unit.refuse_check((5, 9, 1), 7, 1);
    unit.refuse_check((5, 9, 1), 9, 1);
}

/// Every call on the base with some damage is refused with 2.
fn refuse_damaged(what: &str, damage: impl Fn(&mut Unit)) {
    let mut unit = Unit::base();
    damage(&mut unit);
    unit.refuse(2, what);
}

/// "item 0 lives, no dead item is named in it (for loans, by the grants' roll)". 2 comes before 3.
#[test]
fn grants_not_in_order() {
    let set = |unit: &mut Unit, person, item, right| {
        GrantLayout::place(&Grant { item, right, person, depth: 0 }).set(&mut unit.grants);
    };
    refuse_damaged("item 0 dead", |unit| unit.grants[0] &= !(1 << 0));
    refuse_damaged("item 3 named and dead", |unit| unit.grants[0] &= !(1 << 3));
    refuse_damaged("a grant to dead item 7", |unit| set(unit, 7, 9, 1));
    refuse_damaged("a grant on dead item 7", |unit| set(unit, 0, 7, 0));
}

/// "the count is at most 1,024, loans in use rise strictly" and "the rest is 0".
#[test]
fn loans_not_in_order() {
    refuse_damaged("a count of 1,025", |unit| unit.loans[0] = 1025);
    refuse_damaged("a count that leaves one out", |unit| unit.loans[0] = 1);
    refuse_damaged("a count of one too many", |unit| unit.loans[0] = 3);
    refuse_damaged("equal neighbours", |unit| unit.loans[1] = unit.loans[2]);
    refuse_damaged("falling loans", |unit| unit.loans[1] = unit.loans[2] + 1);
    refuse_damaged("a word after the end", |unit| unit.loans[1024] = 1);
    let mut unit = Unit::full();
    unit.loans[0] = 1025;
    unit.refuse(2, "a count of 1,025 over 1,024 loans");
}

/// The first loan of the base, rewritten: each stays below the second.
#[test]
fn loan_not_in_order() {
    let first = Loan { lender: 3, item: 9, right: 1, borrower: 4, depth: 1, last: 0 };
    let put = |what: &str, loan: Loan| refuse_damaged(what, |unit| unit.loans[1] = word_of(&loan));
    put("a loan of right 0", Loan { right: 0, ..first });
    put("a dead lender", Loan { lender: 2, ..first });
    put("a loan on a dead item", Loan { item: 8, ..first });
    put("a dead borrower", Loan { borrower: 6, ..first });
}
