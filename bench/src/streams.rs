//! Command lines for the program, and what documents 01 and 02 say of each: of commands by the plain implementation, of
//! chains by an exhaustive count.

use crate::api::*;
use crate::plain::PLAIN;
use crate::state::{fewest, fresh_flat, is_chain, ChainState, Seeded, KEY};
use std::collections::VecDeque;
use std::fmt::Write;

pub enum Line {
    Create(u32, u32),
    Delete(u32, u32),
    Allow(Grant),
    AllowSet(u64, Grant),
    Withdraw(Grant),
    Lend(Grant),
    Recall(Grant),
    Check(Question),
    Malformed(&'static str),
}

fn grant_text(word: &str, g: &Grant) -> String {
    format!("do={word} by={} to={} on={} right={} depth={}", g.by, g.to, g.on, g.right, g.depth)
}

impl Line {
    pub fn text(&self) -> String {
        match self {
            Line::Create(by, on) => format!("do=create by={by} on={on}"),
            Line::Delete(by, on) => format!("do=delete by={by} on={on}"),
            Line::Allow(g) => grant_text("allow", g),
            Line::AllowSet(set, g) => {
                format!("do=allowset by={} set={set:016x} on={} right={} depth={}", g.by, g.on, g.right, g.depth)
            }
            Line::Withdraw(g) => format!("do=withdraw by={} to={} on={} right={}", g.by, g.to, g.on, g.right),
            Line::Lend(g) => grant_text("lend", g) + " last=0",
            Line::Recall(g) => grant_text("recall", g) + " last=0",
            Line::Check(q) => format!("do=check who={} on={} right={}", q.who, q.on, q.right),
            Line::Malformed(text) => text.to_string(),
        }
    }
}

/// Items 1 to `items` made by the root, then loans of the items to one another.
fn opening(seeded: &mut Seeded, items: u32, loans: u32) -> Vec<Line> {
    let mut lines: Vec<Line> = (1..=items).map(|on| Line::Create(0, on)).collect();
    lines.extend((0..2 * items).map(|_| Line::Allow(seeded.grant(items + 1))));
    lines.extend((0..loans).map(|_| Line::Lend(Grant { by: seeded.below(items + 1), ..seeded.grant(items + 1) })));
    lines
}

fn question(seeded: &mut Seeded, items: u32) -> Question {
    Question { who: seeded.below(items + 1), on: seeded.below(items + 1), right: seeded.below(8) }
}

const ITEMS: u32 = 20;
const LOANS: u32 = 30;

/// The lines that make the small state: a line for each item, two grants an item, the loans.
pub const SMALL_OPENING: usize = (3 * ITEMS + LOANS) as usize;

/// Checks on a state of 20 items and 30 loans.
pub fn checks(count: usize) -> Vec<Line> {
    let mut seeded = Seeded::new(21);
    let mut lines = opening(&mut seeded, ITEMS, LOANS);
    lines.resize_with(count, || Line::Check(question(&mut seeded, ITEMS)));
    lines
}

/// A loan that is not more than `LOANS`, or the end of the oldest one made here, so that the state stays small.
fn loan(seeded: &mut Seeded, grant: Grant, lent: &mut VecDeque<Grant>) -> Line {
    if lent.len() >= LOANS as usize {
        return Line::Recall(lent.pop_front().expect("some loan was made"));
    }
    let grant = Grant { by: seeded.below(ITEMS + 1), ..grant };
    lent.push_back(grant);
    Line::Lend(grant)
}

fn random_loan(seeded: &mut Seeded, grant: Grant) -> Line {
    let grant = Grant { by: seeded.below(ITEMS + 1), ..grant };
    match seeded.below(3) {
        0 => Line::Recall(grant),
        _ => Line::Lend(grant),
    }
}

/// A line of any kind; loans and their ends come from `loan`.
fn any_line(seeded: &mut Seeded, mut loan: impl FnMut(&mut Seeded, Grant) -> Line) -> Line {
    let by = [0, seeded.below(ITEMS + 1)][seeded.below(2) as usize];
    let grant = Grant { by, ..seeded.grant(ITEMS + 1) };
    match seeded.below(16) {
        0 => Line::Create(by, seeded.below(ITEMS + 1)),
        1 => Line::Delete(by, seeded.below(ITEMS + 1)),
        2 | 3 => Line::Allow(grant),
        4 => Line::Withdraw(grant),
        5..=7 => loan(seeded, grant),
        _ => Line::Check(question(seeded, ITEMS)),
    }
}

/// Commands of every kind and as many checks, on a state of 20 items and at most 30 loans.
pub fn mixed(count: usize) -> Vec<Line> {
    let mut seeded = Seeded::new(22);
    let mut lent = VecDeque::new();
    let mut lines = opening(&mut seeded, ITEMS, 0);
    lines.resize_with(count, || any_line(&mut seeded, |seeded, grant| loan(seeded, grant, &mut lent)));
    lines
}

/// The same with loans at random, two made for each recalled; a recall seldom meets one that stands, so loans pile up.
pub fn growing(count: usize) -> Vec<Line> {
    let mut seeded = Seeded::new(22);
    let mut lines = opening(&mut seeded, ITEMS, LOANS);
    lines.resize_with(count, || any_line(&mut seeded, random_loan));
    lines
}

const WRONG: [&str; 10] = [
    "",
    "do=create by=0 on=03",
    "do=create by=0  on=3",
    "do=create by=0 on=3 ",
    "do=create by=0",
    "do=create on=3 by=0",
    "do=check who=4294967296 on=9 right=1",
    "do=allow by=0 to=3 on=9 right=1",
    "do=close by=0 on=3",
    "do=lend by=12345678901 to=4 on=9 right=1 depth=0 last=0",
];

pub fn malformed(count: usize) -> Vec<Line> {
    let mut seeded = Seeded::new(23);
    (0..count).map(|_| Line::Malformed(WRONG[seeded.below(WRONG.len() as u32) as usize])).collect()
}

/// The items, five grants of the key, and loans of it until the table is full and more.
pub const FULL_OPENING: usize = 63 + 5 + 1100;

/// Checks of one key beside 1,024 loans of it among 64 persons; one line in eight lends one more or recalls one.
pub fn full(count: usize) -> Vec<Line> {
    let mut seeded = Seeded::new(24);
    let mut lines: Vec<Line> = (1..=63).map(|on| Line::Create(0, on)).collect();
    lines.extend((1..=5).map(|to| Line::Allow(Grant { by: 0, to, on: KEY.0, right: KEY.1, depth: 8 - to })));
    let loan = |seeded: &mut Seeded| Grant { by: seeded.below(64), on: KEY.0, right: KEY.1, ..seeded.grant(64) };
    lines.extend((0..1100).map(|_| Line::Lend(loan(&mut seeded))));
    lines.resize_with(count, || match seeded.below(16) {
        0 => Line::Lend(loan(&mut seeded)),
        1 => Line::Recall(loan(&mut seeded)),
        _ => Line::Check(Question { who: seeded.below(64), on: KEY.0, right: KEY.1 }),
    });
    lines
}

/// The lines that make all 64 items live.
pub const ITEMS_OPENING: usize = 63;

/// Allows by the root, one line after another, where all items live.
pub fn allows(count: usize) -> Vec<Line> {
    let mut seeded = Seeded::new(25);
    let mut lines: Vec<Line> = (1..=63).map(|on| Line::Create(0, on)).collect();
    lines.resize_with(count, || Line::Allow(seeded.grant(64)));
    lines
}

/// The same with allowsets of 40 members each.
pub fn allow_sets(count: usize) -> Vec<Line> {
    let mut seeded = Seeded::new(25);
    let mut lines: Vec<Line> = (1..=63).map(|on| Line::Create(0, on)).collect();
    let forty = |first| (u64::MAX >> 24).rotate_left(first);
    lines.resize_with(count, || Line::AllowSet(forty(seeded.below(64)), seeded.grant(64)));
    lines
}

/// Which of several best chains an output may have.
#[derive(Clone, Copy, PartialEq)]
pub enum Via {
    /// Any of those with the fewest persons.
    Shortest,
    /// Any, of a program that does not look for the fewest.
    Best,
}

/// The three units, run by the plain implementation.
struct Units {
    lists: Vec<u64>,
    rows: Vec<u8>,
    chains: ChainState,
}

impl Units {
    fn fresh() -> Units {
        let lists = fresh_flat(&PLAIN.lists, LISTS_WORDS);
        Units { lists, rows: fresh_flat(&PLAIN.rows, ROWS_BYTES), chains: ChainState::fresh() }
    }

    /// The numbers of list and row, where the units have the command, and of chain.
    fn command(&mut self, line: &Line) -> (Option<(u32, u32)>, u32) {
        let (l, r) = (&mut self.lists[..], &mut self.rows[..]);
        let (g, t) = (&mut self.chains.grants[..], &mut self.chains.loans[..]);
        let (lists, rows, chains) = (&PLAIN.lists, &PLAIN.rows, &PLAIN.chains);
        match *line {
            Line::Create(by, on) => {
                (Some(((lists.create)(l, by, on), (rows.create)(r, by, on))), (chains.create)(g, t, by, on))
            }
            Line::Delete(by, on) => {
                (Some(((lists.delete)(l, by, on), (rows.delete)(r, by, on))), (chains.delete)(g, t, by, on))
            }
            Line::Allow(a) => (Some(((lists.allow)(l, a), (rows.allow)(r, a))), (chains.allow)(g, t, a)),
            Line::AllowSet(set, a) => {
                (Some(((lists.allow_set)(l, set, a), (rows.allow_set)(r, set, a))), (chains.allow_set)(g, t, set, a))
            }
            Line::Withdraw(a) => (Some(((lists.withdraw)(l, a), (rows.withdraw)(r, a))), (chains.withdraw)(g, t, a)),
            Line::Lend(a) => (None, (chains.lend)(g, t, a)),
            Line::Recall(a) => (None, (chains.recall)(g, t, a)),
            Line::Check(_) | Line::Malformed(_) => (Some((11, 11)), 11),
        }
    }

    /// The fields of a check that isn't refused, up to `via=` and its value where the answer is yes.
    fn check(&self, q: Question) -> (String, Found) {
        let word = |yes| if yes { "yes" } else { "no" };
        let list = word((PLAIN.lists.check)(&self.lists, q).value == 1);
        let row = word((PLAIN.rows.check)(&self.rows, q).value == 1);
        let (depth, persons) = fewest(&self.chains.grants, &self.chains.loans, q);
        let mut text = format!("list={list} row={row} ");
        match persons {
            0 => text.push_str("chain=no depth=- via=-"),
            _ => write!(text, "chain=yes depth={depth} via=").expect("a string takes it"),
        }
        (text, Found { number: DONE, depth, persons })
    }

    /// Whether the text is what the units answer to the line, with a chain of that kind.
    fn accepts(&mut self, line: &Line, text: &str, kind: Via) -> bool {
        if let Line::Check(q) = *line {
            let (fields, found) = self.check(q);
            return match (text.strip_prefix(&fields), found.persons) {
                (Some(rest), 0) => rest.is_empty(),
                (Some(via), _) => self.is_via(q, via, found, kind),
                (None, _) => false,
            };
        }
        match self.command(line) {
            (Some((list, row)), chain) => text == format!("list={list} row={row} chain={chain}"),
            (None, chain) => text == format!("list=- row=- chain={chain}"),
        }
    }

    /// Whether the persons are a chain with the depth found, and as many as were found where it is to be a shortest.
    fn is_via(&self, q: Question, via: &str, found: Found, kind: Via) -> bool {
        let Ok(persons) = via.split(',').map(str::parse).collect::<Result<Vec<u8>, _>>() else {
            return false;
        };
        let given = Found { persons: persons.len() as u32, ..found };
        (kind == Via::Best || given == found)
            && persons.iter().all(|&p| p < 64)
            && is_chain(&self.chains.grants, &self.chains.loans, q, &persons, given)
    }
}

/// Holds an output against the lines, line by line.
pub fn audit(lines: &[Line], output: &str, kind: Via) {
    let mut units = Units::fresh();
    let mut answers = output.lines();
    for (at, line) in lines.iter().enumerate() {
        let answer = answers.next().unwrap_or("");
        let fields = answer.strip_prefix(&format!("line={} ", at + 1));
        let right = fields.is_some_and(|text| units.accepts(line, text, kind));
        assert!(right, "'{}' was answered '{answer}'", line.text());
    }
    assert_eq!(answers.next(), Some(&*format!("lines={}", lines.len())), "the last line");
    assert_eq!(answers.next(), None, "text after the last line");
}
