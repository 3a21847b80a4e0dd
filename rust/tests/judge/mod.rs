//! What the model expects of an engine's answer to a check.
#![allow(dead_code)]

use rights::lent::chains::Checked;

use crate::model::{names_nobody_twice, BestChain, Journal};

/// 3 for a question beyond the limits, else 0.
pub fn question_number((who, on, right): (u32, u32, u32)) -> u32 {
    if who > 63 || on > 63 || right > 7 {
        3
    } else {
        0
    }
}

/// The answer of lists and rows: the number, and 1 for yes.
pub fn flat_answer(journal: &Journal, question: (u32, u32, u32)) -> (u32, u32) {
    let (who, on, right) = question;
    let number = question_number(question);
    (number, u32::from(number == 0 && journal.granted(who, on, right)))
}

/// Holds the chain unit's answer against the journal; `before` is what the chain buffer held and
/// `best` what the best chains to the person are.
pub fn judge_chain(
    journal: &Journal,
    question: (u32, u32, u32),
    best: Option<BestChain>,
    checked: Checked,
    before: [u8; 8],
    chain: [u8; 8],
) {
    let number = question_number(question);
    assert_eq!(checked.number, number, "number of check {question:?}");
    let Some(best) = best.filter(|_| number == 0) else {
        assert_eq!((checked.depth, checked.persons), (0, 0), "no to {question:?}");
        let left = if number == 0 { [255; 8] } else { before };
        assert_eq!(chain, left, "chain buffer after no to {question:?}");
        return;
    };
    assert_eq!(checked.depth, best.allowance, "depth of {question:?}");
    assert_eq!(checked.persons, best.persons, "persons of {chain:?} for {question:?}");
    judge_persons(journal, question, checked, chain);
}

/// The persons written are a chain to the person that ends with the depth and names nobody twice, then
/// 255.
fn judge_persons(journal: &Journal, question: (u32, u32, u32), checked: Checked, chain: [u8; 8]) {
    let (who, on, right) = question;
    let count = checked.persons as usize;
    assert!((1..=8).contains(&count), "{count} persons for {question:?}");
    let (persons, rest) = chain.split_at(count);
    assert!(rest.iter().all(|&byte| byte == 255), "{chain:?} after its end for {question:?}");
    assert_eq!(persons.last().copied().map(u32::from), Some(who), "end of {chain:?}");
    assert!(names_nobody_twice(persons), "somebody twice in {chain:?} for {question:?}");
    let allowance = journal.through(persons, on, right);
    assert_eq!(allowance, Some(checked.depth), "{chain:?} for {question:?}");
}
