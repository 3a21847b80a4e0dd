//! The model held against the papers' own figures and examples, and against chains walked one by
//! one. What stands in quotation marks is the text of document 02.

mod generator;
mod model;

use std::collections::BTreeSet;

use generator::Random;
use model::commands::{
    allow, allow_set, create, delete, drop, lend, recall, shift, sweep, withdraw, BASE,
};
use model::{
    head_of, loan_of, loans_image, loans_in_order, names_nobody_twice, word_of, BestChain, Command,
    Ending, Grant, Head, Journal, Journals, Loan, Numbers,
};

const ON: u32 = 9;
const RIGHT: u32 = 1;

/// The journal that every handover example starts from.
fn base() -> Journal {
    let mut journal = Journal::fresh();
    for command in BASE {
        assert_eq!(journal.give(command), (0, 0));
    }
    journal
}

fn best(journal: &Journal, person: usize) -> Option<u32> {
    journal.best(ON, RIGHT)[person]
}

#[test]
fn checks_e1_to_e3() {
    let journal = base();
    assert_eq!(best(&journal, 5), Some(0));
    assert_eq!(journal.through(&[3, 4, 5], ON, RIGHT), Some(0));
    assert_eq!(best(&journal, 4), Some(1));
    assert_eq!(best(&journal, 0), None);
}

/// E5 as K5 has it: "after the new allow, 4 is no."
#[test]
fn changes_e4_to_e7() {
    let mut e4 = base();
    assert_eq!(e4.give(recall(3, 4, ON, RIGHT, 0, 0)), (0, 0));
    assert_eq!(best(&e4, 4), Some(1));
    let mut e5 = base();
    assert_eq!(e5.give(withdraw(0, 3, ON, RIGHT)), (0, 0));
    assert_eq!(best(&e5, 5), None);
    assert_eq!(e5.give(allow(0, 3, ON, RIGHT, 1)), (0, 0));
    assert_eq!((best(&e5, 3), best(&e5, 4), best(&e5, 5)), (Some(1), None, None));
    let mut e6 = base();
    assert_eq!(e6.give(lend(3, 5, ON, RIGHT, 5, 0)), (0, 0));
    assert_eq!(best(&e6, 5), Some(1));
    assert_eq!(e6.through(&[3, 5], ON, RIGHT), Some(1));
    let mut e7 = base();
    assert_eq!(e7.give(delete(0, 4)), (0, 0));
    assert_eq!(e7.give(create(0, 4)), (0, 0));
    assert_eq!(best(&e7, 4), None);
}

/// A loan's own depth binds where the lender has more left.
#[test]
fn depth_of_a_loan_binds() {
    let mut journal = base();
    assert_eq!(journal.give(allow(0, 3, ON, RIGHT, 7)), (0, 0));
    assert_eq!(best(&journal, 4), Some(1));
    assert_eq!(best(&journal, 5), Some(0));
}

#[test]
fn numbers_e8_to_e12() {
    let mut journal = base();
    assert_eq!(journal.give(create(0, 63)), (0, 0));
    assert_eq!(journal.give(create(0, 64)), (3, 0));
    assert_eq!(journal.give(create(0, 3)), (6, 0));
    assert_eq!(journal.give(delete(3, 0)), (7, 0));
    assert_eq!(journal.give(allow(3, 4, ON, RIGHT, 0)), (8, 0));
    assert_eq!(journal.give(create(7, 3)), (4, 0));
}

#[test]
fn full_e13() {
    let mut journal = base();
    let persons = [0, 3, 4, 5, 9];
    let pairs = persons.iter().flat_map(|by| persons.iter().map(move |to| (*by, *to)));
    let on_keys = pairs.flat_map(|(by, to)| (2..8).map(move |right| (by, to, right)));
    let every = on_keys.flat_map(|(by, to, right)| (0..8).map(move |depth| (by, to, right, depth)));
    let give = |(by, to, right, depth)| journal.give(lend(by, to, ON, right, depth, 0)).0;
    let numbers: Vec<u32> = every.map(give).collect();
    assert_eq!(numbers[..1022], [0; 1022]);
    assert!(numbers[1022..].iter().all(|&number| number == 10));
    assert_eq!(journal.loans.len(), 1024);
    assert_eq!(journal.give(lend(3, 4, ON, RIGHT, 1, 0)), (0, 0));
}

/// "The eight upper bits of a loan hold the last shift": 823,840 + 5 · 16,777,216 and + 255 · that.
#[test]
fn loan_word() {
    let loan = Loan { lender: 3, item: 9, right: 1, borrower: 4, depth: 0, last: 0 };
    for (last, word) in [(0, 823_840), (5, 84_709_920), (255, 4_279_013_920)] {
        assert_eq!(word_of(&Loan { last, ..loan }), word);
        assert_eq!(loan_of(word), Loan { last, ..loan });
    }
}

/// "Loan word 0 becomes shift·2^16 + count, fresh shift 0": 3 · 65,536 + 2 is 196,610.
#[test]
fn loan_word_0() {
    assert_eq!(loans_image(&Journal::fresh())[0], 0);
    let mut journal = base();
    assert_eq!(journal.give(shift(0, 3)), (0, 0));
    let mut image = loans_image(&journal);
    assert_eq!(image[0], 196_610);
    assert_eq!(head_of(&image), Head { shift: 3, count: 2 });
    let words = [(196_610, true), (255 * 65_536 + 2, true), (256 * 65_536 + 2, false)];
    for (word_0, in_order) in words {
        image[0] = word_0;
        assert_eq!(loans_in_order(&image), in_order, "{word_0}");
    }
}

/// "A loan carries only while open-ended or not past its last shift."
#[test]
fn carries() {
    let loan = |last| Loan { lender: 3, item: 9, right: 1, borrower: 4, depth: 0, last };
    let carried = |last| [0, 4, 5, 6, 255].map(|shift| loan(last).carries_in(shift));
    assert_eq!(carried(0), [true; 5]);
    assert_eq!(carried(5), [true, true, true, false, false]);
    assert_eq!(carried(255), [true; 5]);
}

/// E6's loan with last shift 5: in shift 5 the answer is E6's; in 6 the loan is past, and the
/// answer is E1's.
#[test]
fn chains_in_shifts() {
    let mut journal = base();
    assert_eq!(journal.give(lend(3, 5, ON, RIGHT, 5, 5)), (0, 0));
    for (now, allowance, alone) in [(5, 1, Some(1)), (6, 0, None)] {
        assert_eq!(journal.give(shift(0, now)), (0, 0));
        assert_eq!(best(&journal, 5), Some(allowance));
        assert_eq!(journal.through(&[3, 5], ON, RIGHT), alone);
    }
}

/// 12 "after 8", "when the new shift is below the present one and such a loan stands"; "the shift
/// may start again lower once no loan with a last shift stands"; 3 "also covers a shift above 255".
#[test]
fn numbers_of_shift() {
    let mut journal = base();
    assert_eq!(journal.give(lend(3, 4, ON, RIGHT, 1, 5)), (0, 0));
    let give = |journal: &mut Journal, by, now| journal.give(shift(by, now)).0;
    assert_eq!([255, 5, 6].map(|now| journal.answer(shift(0, now))), [0; 3]);
    assert_eq!(give(&mut journal, 0, 6), 0);
    assert_eq!([6, 5, 0].map(|now| give(&mut journal, 0, now)), [0, 12, 12]);
    assert_eq!([256, u32::MAX].map(|now| give(&mut journal, 64, now)), [3, 3]);
    assert_eq!([7, 64, 3].map(|by| give(&mut journal, by, 5)), [4, 3, 8]);
    assert_eq!(journal.give(recall(3, 4, ON, RIGHT, 1, 5)), (0, 0));
    assert_eq!((give(&mut journal, 3, 5), give(&mut journal, 0, 5)), (8, 0));
    assert_eq!((journal.shift, journal.loans.len()), (5, 2));
}

/// 13, "for lend only, when last is set and below the present shift, between 9 and 10".
#[test]
fn numbers_of_last() {
    let mut journal = base();
    assert_eq!(journal.give(shift(0, 6)), (0, 0));
    let of_right = |right, last| lend(3, 4, ON, right, 1, last);
    assert_eq!([0, 5, 6, 255, 256].map(|last| journal.answer(of_right(2, last))), [0, 13, 0, 0, 3]);
    assert_eq!(journal.answer(of_right(0, 5)), 9);
    assert_eq!(journal.answer(lend(3, 7, ON, RIGHT, 1, 5)), 5);
    assert_eq!(journal.answer(recall(3, 4, ON, RIGHT, 1, 5)), 0);
    assert_eq!(journal.answer(recall(3, 4, ON, RIGHT, 1, 256)), 3);
    journal.loans = open_ended(1024);
    assert_eq!([0, 5, 6].map(|last| journal.answer(of_right(2, last))), [10, 13, 10]);
}

/// So many loans, at most 1,024: rights 1 and 2 on item 0, from 0 to each person at each depth.
fn open_ended(count: u32) -> BTreeSet<Loan> {
    let loans: BTreeSet<Loan> = (512..512 + count).map(loan_of).collect();
    assert_eq!((loans.len(), loans.iter().all(|loan| loan.last == 0)), (count as usize, true));
    loans
}

/// A past loan stands: lent again it has 13, beside 1,023 others it makes the table full, and a
/// delete ends it. The shift stays.
#[test]
fn past_loans() {
    let mut journal = Journal { loans: open_ended(1023), ..base() };
    for command in [lend(3, 4, ON, 2, 1, 5), shift(0, 6)] {
        assert_eq!(journal.give(command), (0, 0));
    }
    assert_eq!([5, 6, 0].map(|last| journal.answer(lend(3, 4, ON, 2, 1, last))), [13, 10, 10]);
    assert_eq!((journal.dated().count(), journal.give(delete(0, 4))), (1, (0, 0)));
    assert_eq!((journal.dated().count(), journal.shift), (0, 6));
}

/// K8: "ends all loans past their last shift .. and returns how many there were". In shift 6, of the base's
/// two and loans with last shifts 1, 5, 6 and 255 two are past; a second sweep counts 0.
#[test]
fn sweep_ends_past_loans() {
    let mut journal = base();
    for last in [1, 5, 6, 255] {
        assert_eq!(journal.give(lend(3, 4, ON, 2, 1, last)), (0, 0));
    }
    assert_eq!((journal.give(sweep(0)), journal.past().count()), ((0, 0), 0));
    assert_eq!(journal.give(shift(0, 6)), (0, 0));
    let before = journal.clone();
    assert_eq!((journal.past().count(), journal.returns(sweep(5))), (2, (0, 2)));
    assert_eq!(journal.give(sweep(5)), (0, 2));
    assert_eq!(journal.dated().map(|loan| loan.last).collect::<Vec<u32>>(), [6, 255]);
    assert_eq!((before.loans.len(), journal.loans.len()), (6, 4));
    let Journal { loans, .. } = journal.clone();
    assert_eq!(journal, Journal { loans, ..before });
    assert_eq!((journal.returns(sweep(0)), journal.give(sweep(0))), ((0, 0), (0, 0)));
}

/// "(numbers 1 to 4)"; "Where this or any later call is refused, whatever else it returns is 0", and
/// nothing changes: by 7, who is dead, and by 64. 5, who may edit nothing, may sweep.
#[test]
fn numbers_of_sweep() {
    let mut journal = base();
    for command in [lend(3, 4, ON, RIGHT, 1, 5), shift(0, 6)] {
        assert_eq!(journal.give(command), (0, 0));
    }
    let before = journal.clone();
    for (by, number) in [(7, 4), (63, 4), (64, 3), (u32::MAX, 3)] {
        assert_eq!(journal.give(sweep(by)), (number, 0), "by {by}");
    }
    assert_eq!((journal.clone(), journal.give(sweep(5))), (before, (0, 1)));
    assert!(!sweep(0).is_flat());
}

/// In shift 3 a sweep changes no answer in this shift or a later one: allowances and persons.
#[test]
fn sweep_changes_no_answer() {
    let mut random = Random::new(5);
    let (mut swept, mut later) = (0, 0);
    for _ in 0..300 {
        let before = small(&mut random, 8);
        let mut after = before.clone();
        let (number, count) = after.give(sweep(0));
        assert_eq!((number, before.loans.len()), (0, after.loans.len() + count as usize));
        let best = |journal: &Journal, shift| journal.best_chains_in(shift, ON, RIGHT);
        for shift in 3..7 {
            assert_eq!(best(&after, shift), best(&before, shift), "shift {shift}");
        }
        swept += u32::from(best(&after, 0) != best(&before, 0));
        later += u32::from(best(&after, 3) != best(&after, 4));
    }
    assert!(swept > 0 && later > 0, "{swept}, {later}");
}

/// The items of a set: "bit i for item i".
fn set_of(items: &[u32]) -> u64 {
    items.iter().fold(0, |set, &item| set | 1 << item)
}

/// "14 when the set is empty, straight after 3", so before 4, 5 and 8; else "the lowest refusal's
/// number": 5 of the dead member 7, where the others have 8.
#[test]
fn numbers_of_allowset() {
    let journal = base();
    let answer = |by, set, on, depth| journal.answer(allow_set(by, set, on, RIGHT, depth));
    assert_eq!([0, 3, 7].map(|by| answer(by, 0, ON, 8)), [3; 3]);
    assert_eq!([64, 7, 3, 0].map(|by| answer(by, 0, ON, 7)), [3, 14, 14, 14]);
    assert_eq!([64, 7, 3, 0].map(|by| answer(by, 0, 7, 7)), [3, 14, 14, 14]);
    let team = set_of(&[3, 4, 5]);
    assert_eq!([64, 7, 3, 0].map(|by| answer(by, team, ON, 7)), [3, 4, 8, 0]);
    assert_eq!([64, 7, 3, 0].map(|by| answer(by, team, 7, 7)), [3, 4, 5, 5]);
    let one_dead = set_of(&[3, 4, 5, 7]);
    assert_eq!([64, 7, 3, 0].map(|by| answer(by, one_dead, ON, 7)), [3, 4, 5, 5]);
    assert_eq!(answer(0, u64::MAX, ON, 7), 5);
}

/// Every order of the commands, each beginning with another or going on otherwise.
fn orders(commands: &[Command]) -> Vec<Vec<Command>> {
    if commands.is_empty() {
        return vec![Vec::new()];
    }
    let mut every = Vec::new();
    for (at, &first) in commands.iter().enumerate() {
        let others = [&commands[..at], &commands[at + 1..]].concat();
        every.extend(orders(&others).into_iter().map(|rest| [vec![first], rest].concat()));
    }
    every
}

/// "It does what the single allows do in any order": of a fourth and a fifth member one has the
/// grant and one has it at another depth. All 120 orders leave the same journal.
#[test]
fn allowset_in_every_order() {
    for right in [0, RIGHT] {
        let mut before = base();
        for command in [allow(0, 4, ON, right, 2), allow(0, 5, ON, right, 3)] {
            assert_eq!(before.give(command), (0, 0));
        }
        let mut at_once = before.clone();
        assert_eq!(at_once.give(allow_set(0, set_of(&[0, 3, 4, 5, 9]), ON, right, 2)), (0, 0));
        let allows = [9, 5, 4, 3, 0].map(|to| allow(0, to, ON, right, 2));
        let every = orders(&allows);
        assert_eq!(every.len(), 120);
        for order in every {
            let mut one_by_one = before.clone();
            assert!(order.iter().all(|&allow| one_by_one.give(allow) == (0, 0)));
            assert_eq!(one_by_one, at_once);
        }
    }
}

/// The single allows that the model does are those of the members, each once, and not in the order
/// of the items.
#[test]
fn single_allows() {
    let members = [0, 3, 31, 32, 62, 63];
    let allows = allow_set(1, set_of(&members), 2, 3, 4).single_allows();
    let due = members.map(|to| allow(1, to, 2, 3, 4));
    assert_eq!(allows.len(), 6);
    assert!(due.iter().all(|allow| allows.contains(allow)));
    assert!(allows != due);
    assert_eq!(allow_set(1, u64::MAX, 2, 3, 4).single_allows().len(), 64);
    assert_eq!(allow_set(1, 0, 2, 3, 4).single_allows(), []);
}

/// "drop has withdraw's refusals and 3 for the depth"; "ends one grant"; one that does not stand is no
/// refusal. Depth 2 is 3's last, so its loan ends; 4's stays.
#[test]
fn numbers_of_drop() {
    let mut journal = base();
    let answer = |by, to, on, depth| journal.answer(drop(by, to, on, RIGHT, depth));
    assert_eq!([64, 7, 3, 0].map(|by| answer(by, 3, ON, 8)), [3; 4]);
    assert_eq!([64, 7, 3, 0].map(|by| answer(by, 3, ON, 7)), [3, 4, 8, 0]);
    assert_eq!([64, 7, 3, 0].map(|by| answer(by, 7, ON, 7)), [3, 4, 5, 5]);
    assert_eq!([64, 7, 3, 0].map(|by| answer(by, 3, 7, 7)), [3, 4, 5, 5]);
    assert_eq!((answer(0, 64, ON, 7), answer(0, 3, 64, 7)), (3, 3));
    assert_eq!(journal.answer(drop(0, 3, ON, 8, 7)), 3);
    let before = journal.clone();
    assert_eq!(journal.give(drop(0, 3, ON, RIGHT, 1)), (0, 0));
    assert_eq!(journal, before);
    assert_eq!(journal.give(drop(0, 3, ON, RIGHT, 2)), (0, 0));
    assert_eq!(before.grants.len(), journal.grants.len() + 1);
    assert_eq!((best(&journal, 3), best(&journal, 5)), (None, None));
    assert!(journal.loans.iter().map(|l| (l.lender, l.borrower)).eq([(4, 5)]));
}

/// "withdraw is eight drops": in all 40,320 orders they leave what document 01 says of withdraw, that
/// "every depth granted to that person there ends", and K5, "the loans that person made there end too",
/// and so does the model's withdraw. 4's loan to 5 at depth 0 is 4·2^18 + 9·2^12 + 1·2^9 + 5·2^3.
#[test]
fn withdraw_in_every_order() {
    let mut before = base();
    for command in [allow(0, 3, ON, RIGHT, 0), allow(0, 3, ON, RIGHT, 7), allow(0, 4, ON, RIGHT, 7)]
    {
        assert_eq!(before.give(command), (0, 0));
    }
    let mut left = before.clone();
    left.grants.retain(|g| (g.person, g.item, g.right) != (3, ON, RIGHT));
    left.loans = BTreeSet::from([loan_of(1_085_992)]);
    let mut at_once = before.clone();
    assert_eq!((at_once.give(withdraw(0, 3, ON, RIGHT)), &at_once), ((0, 0), &left));
    let every = orders(&withdraw(0, 3, ON, RIGHT).single_drops());
    assert_eq!(every.len(), 40_320);
    for order in every {
        let mut one_by_one = before.clone();
        assert!(order.iter().all(|&drop| one_by_one.give(drop) == (0, 0)));
        assert_eq!(one_by_one, left);
    }
}

/// So many loans stand after the commands, each accepted, on the base with these loans of 3 and 4: of
/// other depths and last shifts, on another item, of another right.
#[track_caller]
fn loans_after(commands: &[Command], count: usize) {
    let mut journal = base();
    let loans = [
        lend(3, 4, ON, RIGHT, 7, 0),
        lend(3, 5, ON, RIGHT, 0, 5),
        lend(3, 3, ON, RIGHT, 1, 9),
        lend(3, 4, ON, 2, 1, 0),
        lend(3, 4, 5, RIGHT, 1, 0),
        lend(4, 3, ON, RIGHT, 1, 5),
    ];
    for &command in loans.iter().chain(&[shift(0, 6)]).chain(commands) {
        assert_eq!(journal.give(command), (0, 0), "{command:?}");
    }
    assert_eq!((journal.loans.len(), journal.shift), (count, 6), "{commands:?}");
}

/// K5: of the eight loans four are 3's on 9 and right 1, one of them past. They end with 3's last grant
/// there and with nothing else: no withdraw or drop of another person, item or right ends one,
/// and none on somebody without a grant there, as 4, who has made two.
#[test]
fn withdrawn_lender() {
    loans_after(&[], 8);
    loans_after(&[withdraw(0, 3, ON, RIGHT)], 4);
    loans_after(&[drop(0, 3, ON, RIGHT, 2)], 4);
    loans_after(&[drop(0, 3, ON, RIGHT, 1)], 8);
    loans_after(&[allow(0, 3, ON, RIGHT, 0), drop(0, 3, ON, RIGHT, 2)], 8);
    loans_after(&[allow(0, 3, ON, RIGHT, 0), withdraw(0, 3, ON, RIGHT)], 4);
    loans_after(&[withdraw(0, 4, ON, RIGHT), drop(0, 4, ON, RIGHT, 1)], 8);
    loans_after(&[allow(0, 4, ON, RIGHT, 0), withdraw(0, 4, ON, RIGHT)], 6);
    loans_after(&[allow(0, 3, ON, 0, 3), withdraw(0, 3, ON, 0), withdraw(0, 3, ON, 2)], 8);
    loans_after(&[allow(0, 3, ON, 2, 0), withdraw(0, 3, ON, 2)], 7);
    loans_after(&[allow(0, 3, 5, RIGHT, 0), drop(0, 3, 5, RIGHT, 0)], 7);
}

/// "checked once before the first": 0 withdraws its own edit grant; of the drops, those after depth 0
/// are refused with 8.
#[test]
fn withdraw_checked_once() {
    let (mut at_once, mut one_by_one) = (base(), base());
    assert_eq!(at_once.give(withdraw(0, 0, ON, 0)), (0, 0));
    let numbers: Vec<u32> =
        (0..8).map(|depth| one_by_one.give(drop(0, 0, ON, 0, depth)).0).collect();
    assert_eq!(numbers, [0, 8, 8, 8, 8, 8, 8, 8]);
    assert_eq!(at_once, one_by_one);
}

/// The drops that the model does are those of the eight depths, each once, not always rising.
#[test]
fn single_drops() {
    for (to, on) in [(0, 0), (3, 9), (5, 2), (63, 63)] {
        let drops = withdraw(1, to, on, 3).single_drops();
        let due: Vec<Command> = (0..8).map(|depth| drop(1, to, on, 3, depth)).collect();
        assert_eq!(drops.len(), 8);
        assert!(due.iter().all(|drop| drops.contains(drop)));
        assert_eq!(drops == due, (to, on) == (0, 0));
    }
    assert_eq!(drop(1, 2, 3, 4, 5).single_drops(), []);
}

/// "Lists and rows pass it over": their journal is the chain unit's until a grant is dropped, and from
/// then on their numbers may differ.
#[test]
fn two_journals() {
    let mut journals = Journals::fresh();
    let both = |number| Numbers::counting_nothing(number, Some(number));
    let chains_alone = |number| Numbers::counting_nothing(number, None);
    for command in BASE {
        let number = if command.is_flat() { both(0) } else { chains_alone(0) };
        assert_eq!((journals.answer(command), journals.give(command)), (number, number));
    }
    assert!(journals.agree() && journals.flat.loans.is_empty());
    assert_eq!(journals.give(shift(0, 3)), chains_alone(0));
    assert_eq!(journals.give(drop(0, 0, ON, 0, 1)), chains_alone(0));
    assert!(journals.agree() && journals.flat.shift == 0);
    assert_eq!(journals.give(drop(0, 0, ON, 0, 0)), chains_alone(0));
    assert!(!journals.agree());
    assert_eq!(journals.give(allow(0, 3, ON, RIGHT, 8)), both(3));
    let parted = Numbers::counting_nothing(8, Some(0));
    assert_eq!(journals.answer(delete(0, ON)), parted);
    assert_eq!(journals.give(allow(0, 4, ON, RIGHT, 2)), parted);
    assert!(journals.flat.granted(4, ON, RIGHT) && !journals.chains.granted(4, ON, RIGHT));
}

/// The header's sizes and limits are the paper's.
#[test]
fn constants() {
    assert_eq!((rights::ITEM_MAX, rights::RIGHT_MAX, rights::DEPTH_MAX), (63, 7, 7));
    assert_eq!(rights::SHIFT_MAX, 255);
    assert_eq!((rights::LISTS_WORDS, rights::ROWS_BYTES), (513, 4104));
    assert_eq!((rights::GRANTS_BYTES, rights::LOANS_WORDS), (32_776, 1025));
    assert_eq!((rights::LOANS_MAX, rights::CHAIN_PERSONS, rights::NO_PERSON), (1024, 8, 255));
    assert_eq!((rights::DONE, rights::MALFORMED), (0, 11));
    assert_eq!((rights::SHIFT_BACK, rights::LAST_PAST, rights::EMPTY_SET), (12, 13, 14));
}

/// Every chain there is, walked one by one: its ending and those of all that prolong it.
fn walk(journal: &Journal, last: Ending, all: &mut Vec<Ending>) {
    all.push(last);
    for longer in journal.longer(last, journal.shift, ON, RIGHT) {
        walk(journal, longer, all);
    }
}

/// The endings found are those of all chains, each with the fewest persons of the chains that have it,
/// and no chain has more than 8 persons.
#[test]
fn endings_are_those_of_all_chains() {
    let mut random = Random::new(1);
    for _ in 0..300 {
        let journal = small(&mut random, 8);
        let mut walked = Vec::new();
        for start in journal.starts(ON, RIGHT) {
            walk(&journal, start, &mut walked);
        }
        assert!(walked.iter().all(|ending| ending.persons <= 8));
        let mut found = journal.endings(journal.shift, ON, RIGHT);
        walked.sort();
        walked.dedup_by_key(|ending| (ending.person, ending.allowance));
        found.sort();
        assert_eq!(found, walked);
    }
}

/// A chain told by its persons, and what it ends with.
type Told = (Vec<u8>, u32);

/// Every chain among five persons that begins with these.
fn tell(journal: &Journal, persons: &mut Vec<u8>, all: &mut Vec<Told>) {
    for person in 0..5 {
        persons.push(person);
        if let Some(allowance) = journal.through(persons, ON, RIGHT) {
            all.push((persons.clone(), allowance));
            tell(journal, persons, all);
        }
        persons.pop();
    }
}

/// Of all chains to the person those that end with the most.
fn best_told(all: &[Told], person: u8) -> Vec<Told> {
    let mut chains: Vec<Told> =
        all.iter().filter(|(persons, _)| persons.ends_with(&[person])).cloned().collect();
    let most = chains.iter().map(|&(_, allowance)| allowance).max();
    chains.retain(|&(_, allowance)| Some(allowance) == most);
    chains
}

/// K7: "Among chains with the greatest allowance the check now gives one with the fewest persons". The
/// number is that of all chains, told one by one; none of the fewest persons names anybody twice, though
/// others that end with as much do.
#[test]
fn fewest_persons_of_all_chains() {
    let mut random = Random::new(3);
    let [mut several, mut longer, mut loops] = [0; 3];
    for _ in 0..300 {
        let journal = small(&mut random, 16);
        let mut all = Vec::new();
        tell(&journal, &mut Vec::new(), &mut all);
        let best = journal.best_chains(ON, RIGHT);
        for person in 0..5 {
            let told = best_told(&all, person);
            let fewest = told.iter().map(|(persons, _)| persons.len()).min();
            let due = fewest.map(|n| BestChain { allowance: told[0].1, persons: n as u32 });
            assert_eq!(best[usize::from(person)], due);
            let (shortest, others): (Vec<&Told>, Vec<&Told>) =
                told.iter().partition(|(persons, _)| Some(persons.len()) == fewest);
            assert!(shortest.iter().all(|(persons, _)| names_nobody_twice(persons)));
            several += u32::from(shortest.len() > 1);
            longer += u32::from(others.iter().any(|(persons, _)| names_nobody_twice(persons)));
            loops += u32::from(others.iter().any(|(persons, _)| !names_nobody_twice(persons)));
        }
    }
    assert!(several > 20 && longer > 20 && loops > 20, "{several}, {longer}, {loops}");
}

/// The base's chains have 1, 2 and 3 persons. With a loan of depth 0 from 3 to 5 two persons end with 0
/// as the three do; with E6's of depth 5 two end with 1.
#[test]
fn fewest_persons_of_the_base() {
    let chain = |allowance, persons| Some(BestChain { allowance, persons });
    let mut journal = base();
    let best = journal.best_chains(ON, RIGHT);
    assert_eq!((best[3], best[4], best[5]), (chain(2, 1), chain(1, 2), chain(0, 3)));
    assert_eq!((best[0], best[9]), (None, None));
    assert_eq!(journal.give(lend(3, 5, ON, RIGHT, 0, 0)), (0, 0));
    assert_eq!(journal.best_chains(ON, RIGHT)[5], chain(0, 2));
    assert_eq!(journal.give(lend(3, 5, ON, RIGHT, 5, 0)), (0, 0));
    assert_eq!(journal.best_chains(ON, RIGHT)[5], chain(1, 2));
}

/// "journal and chains use only carrying loans": in shift 3 the answers are those of a journal that
/// lacks the loans with last shift 1 or 2.
#[test]
fn endings_are_those_of_carrying_loans() {
    let mut random = Random::new(2);
    let mut fewer = 0;
    for _ in 0..300 {
        let journal = small(&mut random, 8);
        let mut carrying = journal.clone();
        carrying.loans.retain(|loan| [0, 3, 4].contains(&loan.last));
        fewer += u32::from(carrying != journal);
        carrying.shift = 0;
        assert_eq!(journal.best(ON, RIGHT), carrying.best(ON, RIGHT));
        assert_eq!(journal.best_in(0, ON, RIGHT), Journal { shift: 0, ..journal }.best(ON, RIGHT));
    }
    assert!(fewer > 0);
}

/// A few grants and so many loans among five persons, in shift 3; last shifts are 1 to 4, or none.
fn small(random: &mut Random, loans: u32) -> Journal {
    let mut journal = Journal { shift: 3, ..Journal::fresh() };
    for _ in 0..3 {
        let (person, depth) = (random.below(5), random.below(8));
        journal.grants.insert(Grant { item: ON, right: RIGHT, person, depth });
    }
    for _ in 0..loans {
        let (lender, borrower, depth) = (random.below(5), random.below(5), random.below(8));
        let last = random.below(5);
        journal.loans.insert(Loan { lender, item: ON, right: RIGHT, borrower, depth, last });
    }
    journal
}
