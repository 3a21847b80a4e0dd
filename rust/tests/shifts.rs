//! The chain unit through shifts, on fixed calls. Every expected value is worked out from request
//! K1 of document 02 and from document 01; what stands in quotation marks is their text.

mod engine;
mod model;
mod unit;

use model::commands::{allow, create, delete, lend, recall, shift, withdraw};
use model::{word_of, Loan};
use rights::lent;
use unit::{Question, Unit};

/// 4's question about the drawer 9, right 2.
const ASKED: Question = (4, 9, 2);

/// The base, and right 2 on 9 granted to 3 at depth 2. 3 may not edit item 0, and 7 is dead.
fn granted() -> Unit {
    Unit::base().after(&[allow(0, 3, 9, 2, 2)])
}

/// The same in shift 6, which is the last of a loan of right 2 from 3 to 4.
fn lent_for_shift_6() -> Unit {
    granted().after(&[shift(0, 6), lend(3, 4, 9, 2, 1, 6)])
}

/// "The eight upper bits of a loan hold the last shift"; "Loan word 0 becomes shift·2^16 + count,
/// fresh shift 0". The paper's 823,840 with last shift 5 is 5·2^24 more, 84,709,920, and with 255
/// it is 4,279,013,920: both come after the loans of the base, whose lender 4 is greater. Word 0 is
/// 3·65,536 + 3 in shift 3 and 255·65,536 + 3 in shift 255.
#[test]
fn words() {
    assert!(Unit::fresh().loans == [0; 1025]);
    let mut unit = Unit::base().after(&[lend(3, 4, 9, 1, 0, 5)]);
    assert_eq!(unit.loans[..5], [3, 823_841, 1_085_992, 84_709_920, 0]);
    let grants = unit.grants.clone();
    unit.give(0, &[shift(0, 3)]);
    assert_eq!(unit.loans[..5], [196_611, 823_841, 1_085_992, 84_709_920, 0]);
    unit.give(0, &[shift(0, 255)]);
    assert_eq!(unit.loans[..5], [16_711_683, 823_841, 1_085_992, 84_709_920, 0]);
    assert!(unit.grants == grants && unit.loans[5..] == [0; 1020]);
    unit.give(0, &[lend(3, 4, 9, 1, 0, 255), recall(3, 4, 9, 1, 0, 5)]);
    assert_eq!(unit.loans[..5], [16_711_683, 823_841, 1_085_992, 4_279_013_920, 0]);
}

/// No other command changes the shift: 6·65,536 is 393,216. The delete of 4 ends the base's two
/// loans and the one with a last shift.
#[test]
fn shift_stays() {
    let mut unit = lent_for_shift_6().after(&[create(0, 8), allow(0, 8, 9, 2, 0)]);
    unit.give(0, &[withdraw(0, 8, 9, 2), delete(0, 8), lend(3, 5, 9, 2, 1, 7)]);
    assert_eq!(unit.loans[0], 393_216 + 4);
    unit.give(0, &[recall(3, 5, 9, 2, 1, 7)]);
    assert_eq!(unit.loans[0], 393_216 + 3);
    unit.give(0, &[delete(0, 4)]);
    assert_eq!(unit.loans[..2], [393_216, 0]);
}

/// "A loan carries only while open-ended or not past its last shift": before its last shift and in
/// it, and no longer in the next. The base's loans are open-ended.
#[test]
fn carries_to_its_last_shift() {
    let mut unit = granted().after(&[lend(3, 4, 9, 2, 1, 6)]);
    for (now, carries) in [(0, true), (1, true), (5, true), (6, true), (7, false), (255, false)] {
        unit.give(0, &[shift(0, now)]);
        if carries {
            unit.yes(ASKED, 1, &[3, 4]);
        } else {
            unit.no(ASKED);
        }
        unit.yes((5, 9, 1), 0, &[3, 4, 5]);
    }
}

/// The last shift there is: nothing follows it, so such a loan carries in every shift.
#[test]
fn last_shift_255() {
    let mut unit = granted().after(&[lend(3, 4, 9, 2, 1, 255)]);
    for now in [0, 254, 255] {
        unit.give(0, &[shift(0, now)]);
        unit.yes(ASKED, 1, &[3, 4]);
    }
}

/// A chain ends where a loan in it is past, and the others go on. E6's loan with last shift 6 gives
/// E6's answer, and in shift 7 the answer is E1's again.
#[test]
fn chains_of_carrying_loans() {
    let mut unit = lent_for_shift_6().after(&[lend(4, 5, 9, 2, 7, 0), lend(3, 5, 9, 1, 5, 6)]);
    unit.yes((5, 9, 2), 0, &[3, 4, 5]);
    unit.yes((5, 9, 1), 1, &[3, 5]);
    unit.give(0, &[shift(0, 7)]);
    unit.no((5, 9, 2));
    unit.yes((5, 9, 1), 0, &[3, 4, 5]);
    unit.give(0, &[lend(3, 4, 9, 2, 1, 7)]);
    unit.yes((5, 9, 2), 0, &[3, 4, 5]);
}

/// A loan is told by all its fields: with last shift 0, 6 and 8 it stands three times beside the
/// base's two, and a recall ends the one it names. None stands with 7.
#[test]
fn same_loan_with_other_last_shifts() {
    let mut unit = lent_for_shift_6().after(&[lend(3, 4, 9, 2, 1, 8), lend(3, 4, 9, 2, 1, 0)]);
    unit.give(0, &[lend(3, 4, 9, 2, 1, 6)]);
    assert_eq!(unit.loans[0], (6 << 16) + 5);
    let before = unit.clone();
    unit.give(0, &[recall(3, 4, 9, 2, 1, 7)]);
    assert!(unit == before, "changed by a recall of no loan");
    unit.give(0, &[recall(3, 4, 9, 2, 1, 0), shift(0, 7)]);
    unit.yes(ASKED, 1, &[3, 4]);
    unit.give(0, &[shift(0, 9)]);
    unit.no(ASKED);
    unit.give(0, &[lend(3, 4, 9, 2, 1, 0), recall(3, 4, 9, 2, 1, 8), recall(3, 4, 9, 2, 1, 6)]);
    unit.yes(ASKED, 1, &[3, 4]);
    assert_eq!(unit.loans[0], (9 << 16) + 3);
}

/// 13, "for lend only, when last is set and below the present shift, between 9 and 10": in shift 6
/// last shift 5 is refused and 6 is not. In shift 0 none is below.
#[test]
fn numbers_of_last() {
    let mut unit = granted().after(&[lend(3, 4, 9, 2, 1, 1), recall(3, 4, 9, 2, 1, 1)]);
    unit.give(0, &[shift(0, 6)]);
    unit.give(13, &[lend(3, 4, 9, 2, 1, 5), lend(3, 4, 9, 2, 1, 1)]);
    unit.no(ASKED);
    unit.give(9, &[lend(3, 4, 9, 0, 1, 5)]);
    unit.give(5, &[lend(3, 7, 9, 0, 1, 5), lend(3, 4, 7, 0, 1, 5)]);
    unit.give(4, &[lend(7, 4, 9, 0, 1, 5)]);
    unit.give(0, &[recall(3, 4, 9, 2, 1, 5), recall(3, 4, 9, 0, 1, 5)]);
    for last in [0, 6, 7, 255] {
        unit.give(0, &[lend(3, 4, 9, 2, 1, last), recall(3, 4, 9, 2, 1, last)]);
    }
}

/// A past loan stands until it is recalled or an item that it names is deleted, here with the
/// base's two, and lent again it is refused like any other.
#[test]
fn past_loans() {
    let mut unit = lent_for_shift_6().after(&[lend(3, 4, 9, 2, 1, 6), shift(0, 7)]);
    unit.give(13, &[lend(3, 4, 9, 2, 1, 6)]);
    assert_eq!(unit.loans[0], (7 << 16) + 3);
    assert_eq!(unit.clone().after(&[delete(0, 4)]).loans[..2], [7 << 16, 0]);
    unit.give(0, &[recall(3, 4, 9, 2, 1, 6)]);
    assert_eq!(unit.loans[0], (7 << 16) + 2);
    unit.give(13, &[lend(3, 4, 9, 2, 1, 6)]);
}

/// 13 comes before 10. Past loans are of the 1,024, and the same loan with another last shift is
/// one more.
#[test]
fn full_table() {
    let mut unit = Unit::full().after(&[shift(0, 6)]);
    unit.give(13, &[lend(15, 8, 9, 1, 0, 5), lend(15, 7, 9, 1, 7, 5)]);
    unit.give(10, &[lend(15, 8, 9, 1, 0, 0), lend(15, 8, 9, 1, 0, 6), lend(15, 7, 9, 1, 7, 6)]);
    unit.give(0, &[lend(15, 7, 9, 1, 7, 0)]);
    unit.give(0, &[recall(15, 7, 9, 1, 7, 0), lend(15, 7, 9, 1, 7, 6), shift(0, 7)]);
    assert_eq!(unit.loans[0], (7 << 16) + 1024);
    unit.give(10, &[lend(15, 7, 9, 1, 7, 0), lend(15, 7, 9, 1, 7, 7)]);
    unit.give(13, &[lend(15, 7, 9, 1, 7, 6)]);
    unit.give(0, &[recall(15, 7, 9, 1, 7, 6), lend(15, 7, 9, 1, 7, 7)]);
    unit.give(10, &[lend(15, 8, 9, 1, 0, 0)]);
}

/// 12 "when the new shift is below the present one and such a loan stands": in shift 6 the shift 5
/// is refused and 6 is not, and in shift 7 the shift 6, though the loan is past.
#[test]
fn shift_back() {
    let mut unit = lent_for_shift_6();
    unit.give(12, &[shift(0, 5), shift(0, 0)]);
    unit.give(0, &[shift(0, 6), shift(0, 7)]);
    unit.give(12, &[shift(0, 6), shift(0, 0)]);
    unit.give(0, &[shift(0, 7), shift(0, 255), shift(0, 255)]);
    unit.give(12, &[shift(0, 254)]);
}

/// "after 8", which comes after 3 and 4: by 7, who is dead, and by 3, who lacks "edit on item 0",
/// also where the shift would rise. An edit grant is one "at any depth".
#[test]
fn numbers_of_shift() {
    let mut unit = lent_for_shift_6();
    unit.give(3, &[shift(7, 256), shift(64, 5), shift(0, 256), shift(0, u32::MAX)]);
    unit.give(4, &[shift(7, 5), shift(7, 7)]);
    unit.give(8, &[shift(3, 5), shift(3, 6), shift(3, 7)]);
    unit.give(0, &[allow(0, 3, 0, 0, 7), withdraw(0, 0, 0, 0), shift(3, 7)]);
    unit.give(12, &[shift(3, 6)]);
    unit.give(8, &[shift(0, 6), shift(0, 8)]);
}

/// "The shift may start again lower once no loan with a last shift stands": neither the recall of a
/// loan that is open-ended is enough, nor that of one of two. A delete ends loans too.
#[test]
fn shift_starts_again() {
    let mut unit = lent_for_shift_6().after(&[lend(3, 5, 9, 2, 1, 9), shift(0, 7)]);
    unit.give(0, &[recall(4, 5, 9, 1, 0, 0), recall(3, 4, 9, 2, 1, 6)]);
    unit.give(12, &[shift(0, 6)]);
    let mut deleted = unit.clone().after(&[delete(0, 5)]);
    unit.give(0, &[recall(3, 5, 9, 2, 1, 9)]);
    for unit in [&mut unit, &mut deleted] {
        unit.give(0, &[shift(0, 6), shift(0, 0), lend(3, 4, 9, 2, 1, 1)]);
        unit.yes(ASKED, 1, &[3, 4]);
        assert_eq!(unit.loans[0], 2);
    }
}

/// "Number 3 also covers a shift above 255", before 4; 256 + 6 is not taken for 6, nor 256 for 0.
#[test]
fn beyond_the_limits() {
    let mut unit = lent_for_shift_6();
    for beyond in [256, 256 + 6, 65_536 + 6, u32::MAX] {
        unit.give(3, &[lend(3, 4, 9, 2, 1, beyond), lend(7, 4, 9, 0, 1, beyond)]);
        unit.give(3, &[recall(3, 4, 9, 2, 1, beyond), recall(7, 4, 9, 2, 1, beyond)]);
        unit.give(3, &[shift(0, beyond), shift(7, beyond)]);
    }
    unit.give(0, &[lend(3, 4, 9, 2, 1, 255), recall(3, 4, 9, 2, 1, 255), shift(0, 255)]);
}

/// Every call on the unit with some damage is refused with 2.
fn refuse_damaged(what: &str, damage: impl Fn(&mut Unit)) {
    let mut unit = lent_for_shift_6();
    damage(&mut unit);
    unit.refuse(2, what);
}

/// "Number 2 one in an image", of a shift above 255; a count above 1,024 is none beside any shift.
#[test]
fn word_0_not_in_order() {
    for shift in [256, 257, 512, 65_535] {
        refuse_damaged("a shift above 255", |unit| unit.loans[0] = (shift << 16) + 3);
        let mut fresh = Unit::fresh();
        fresh.loans[0] = shift << 16;
        fresh.refuse(2, "a shift above 255 and no loan");
    }
    refuse_damaged("a shift of 256 and a count of 1,025", |unit| {
        unit.loans[0] = (256 << 16) + 1025
    });
    for count in [1025, 65_535] {
        refuse_damaged("a count above 1,024", |unit| unit.loans[0] = (6 << 16) + count);
    }
    refuse_damaged("a loan not counted", |unit| unit.loans[0] = (6 << 16) + 2);
}

/// Every call on the unit with just these loans in its image is refused with 2.
fn refuse_loans(what: &str, words: &[u32]) {
    refuse_damaged(what, |unit| {
        unit.loans[0] = (6 << 16) + words.len() as u32;
        unit.loans[1..].fill(0);
        unit.loans[1..=words.len()].copy_from_slice(words);
    });
}

/// Loans rise "strictly", by the whole word: of the base's two the first is the less, and no longer
/// with a last shift. What else an image may not have, it may not have with a last shift.
#[test]
fn loans_not_in_order() {
    refuse_loans("a last shift before none", &[6 << 24 | 823_841, 1_085_992]);
    refuse_loans("falling last shifts", &[7 << 24 | 823_841, 6 << 24 | 823_841]);
    refuse_loans("equal loans", &[6 << 24 | 823_841, 6 << 24 | 823_841]);
    refuse_damaged("a last shift after the end", |unit| unit.loans[4] = 255 << 24);
    let third = Loan { lender: 3, item: 9, right: 2, borrower: 4, depth: 1, last: 6 };
    assert_eq!(lent_for_shift_6().loans[3], word_of(&third));
    let put = |what: &str, loan: Loan| refuse_damaged(what, |unit| unit.loans[3] = word_of(&loan));
    put("a loan of right 0", Loan { right: 0, ..third });
    put("a dead lender", Loan { lender: 7, ..third });
    put("a loan on a dead item", Loan { item: 7, ..third });
    put("a dead borrower", Loan { borrower: 7, ..third });
}

/// "the 2^24 limit goes": every last shift may stand in an image, past ones too, and every shift up
/// to 255.
#[test]
fn in_order() {
    for (shift, last) in [(0, 1), (6, 5), (6, 6), (255, 1), (255, 255), (0, 255)] {
        let mut unit = lent_for_shift_6();
        unit.loans[0] = (shift << 16) + 3;
        unit.loans[3] = unit.loans[3] % (1 << 24) + (last << 24);
        assert_eq!(lent::chains::inspect(&unit.grants, &unit.loans), 0, "{shift}, {last}");
        if shift <= last {
            unit.yes(ASKED, 1, &[3, 4]);
        } else {
            unit.no(ASKED);
        }
    }
}

/// The story: "A loan made for one shift is forgotten". It is lent for this shift and carries; in
/// the next it does not. The shift goes back to 1 only after it was called in.
#[test]
fn a_forgotten_loan() {
    let mut unit = granted().after(&[shift(0, 1), lend(3, 4, 9, 2, 0, 1)]);
    unit.yes(ASKED, 0, &[3, 4]);
    unit.give(0, &[shift(0, 2)]);
    unit.no(ASKED);
    unit.give(12, &[shift(0, 1)]);
    unit.give(0, &[recall(3, 4, 9, 2, 0, 1), shift(0, 1)]);
    unit.no(ASKED);
}
