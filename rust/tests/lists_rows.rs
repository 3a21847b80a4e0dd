//! Lists and rows on fixed calls, each call to both. Every expected value is worked out from
//! document 01; what stands in quotation marks is its text.

mod engine;
mod model;

use std::collections::BTreeSet;

use engine::Flat;
use model::commands::{allow, allow_set, create, delete, withdraw};
use model::{image_of, Command, Grant, Journal, Layout, ListLayout, RowLayout};
use rights::lent;

/// The number of a check, and 1 for yes.
type Answer = (u32, u32);

const YES: Answer = (0, 1);
const NO: Answer = (0, 0);

/// The images of lists and rows, which are given the same calls.
#[derive(Clone, PartialEq, Eq)]
struct Units {
    lists: Vec<u64>,
    rows: Vec<u8>,
}

impl Units {
    /// Buffers of these lengths that hold a number in every cell.
    fn filled(cell: u8, words: usize, bytes: usize) -> Self {
        Self { lists: vec![cell.into(); words], rows: vec![cell; bytes] }
    }

    /// The images by the paper's formulas.
    fn of(journal: &Journal) -> Self {
        Self { lists: image_of::<ListLayout>(journal), rows: image_of::<RowLayout>(journal) }
    }

    /// Fresh units, made in buffers that held something else.
    fn fresh() -> Self {
        let mut units = Self::filled(9, ListLayout::CELLS, RowLayout::CELLS);
        units.make_fresh(0);
        units
    }

    fn make_fresh(&mut self, number: u32) {
        assert_eq!(ListLayout::fresh(&mut self.lists), number, "fresh lists");
        assert_eq!(RowLayout::fresh(&mut self.rows), number, "fresh rows");
    }

    /// The units after commands that both accept.
    fn after(mut self, commands: &[Command]) -> Self {
        self.give(0, commands);
        self
    }

    /// Both answer each command with the number.
    #[track_caller]
    fn give(&mut self, number: u32, commands: &[Command]) {
        for &command in commands {
            give::<ListLayout>(&mut self.lists, command, number);
            give::<RowLayout>(&mut self.rows, command, number);
        }
    }

    /// Both answer each question (who, on, right) alike.
    #[track_caller]
    fn check(&self, answer: Answer, questions: &[(u32, u32, u32)]) {
        for &question in questions {
            assert_eq!(ListLayout::check(&self.lists, question), answer, "lists, {question:?}");
            assert_eq!(RowLayout::check(&self.rows, question), answer, "rows, {question:?}");
        }
    }

    /// Both give the number and the persons with at least one grant.
    #[track_caller]
    fn subjects(&self, number: u32, persons: u64) {
        assert_eq!(ListLayout::subjects(&self.lists), (number, persons), "lists");
        assert_eq!(RowLayout::subjects(&self.rows), (number, persons), "rows");
    }

    /// What buffers hold after the rows of the lists and the lists of the rows were asked for.
    fn convert(&self, number: u32, mut into: Units) -> Units {
        let to_rows = lent::convert::lists_to_rows(&self.lists, &mut into.rows);
        let to_lists = lent::convert::rows_to_lists(&self.rows, &mut into.lists);
        assert_eq!((to_rows, to_lists), (number, number), "conversions");
        into
    }

    /// Every call that reads the images is refused with the number: "all unchanged". "Beside a
    /// refusal, depth, number of persons and holder roll are 0."
    fn refuse(&self, number: u32, what: &str) {
        println!("{what}");
        let mut left = self.clone();
        let commands = [create(0, 1), delete(64, 0), allow(0, 0, 0, 1, 0), withdraw(0, 0, 0, 1)];
        left.give(number, &commands);
        left.give(number, &[allow_set(0, 1, 0, 1, 0), allow_set(64, 0, 0, 1, 0)]);
        left.check((number, 0), &[(0, 0, 0)]);
        left.subjects(number, 0);
        let held = Units::filled(7, ListLayout::CELLS, RowLayout::CELLS);
        assert!(left.convert(number, held.clone()) == held, "a target changed");
        assert!(left == *self, "an image changed");
    }
}

/// One unit answers a command with the number; a refused one leaves the image as it was.
#[track_caller]
fn give<U: Flat>(image: &mut [U::Cell], command: Command, number: u32) {
    let before = image.to_vec();
    assert_eq!(U::give(image, command), Some(number), "{}, {command:?}", U::NAME);
    assert!(number == 0 || *image == before, "{} changed by {command:?}", U::NAME);
}

/// Items 3, 4 and 9 live, created by 0.
fn created() -> Units {
    Units::fresh().after(&[create(0, 3), create(0, 4), create(0, 9)])
}

/// Beside that, 3 has rights 0 and 1 on 9, and 4 has right 2 there.
fn allowed() -> Units {
    created().after(&[allow(0, 3, 9, 1, 2), allow(0, 3, 9, 0, 0), allow(3, 4, 9, 2, 7)])
}

/// The grants of 3 have ended.
fn withdrawn() -> Units {
    allowed().after(&[withdraw(0, 3, 9, 1), withdraw(0, 3, 9, 0)])
}

/// Items 9 and 3 were deleted and created again; nobody but 0 has a grant.
fn recreated() -> Units {
    let commands = [allow(0, 3, 4, 1, 0), delete(0, 9), create(0, 9), delete(0, 3), create(0, 3)];
    withdrawn().after(&commands)
}

/// The last edit grants on 4 and on 0 have ended.
fn without_editors() -> Units {
    recreated().after(&[withdraw(0, 0, 4, 0), withdraw(0, 0, 0, 0)])
}

/// Item 63 lives; 62 and 11 were created and deleted.
fn after_deletes() -> Units {
    let units = without_editors().after(&[create(0, 63), create(63, 62), delete(63, 62)]);
    units.after(&[create(3, 11), allow(3, 11, 11, 0, 0), delete(11, 11)])
}

/// "making a fresh unit knows 1 alone."
#[test]
fn fresh_wrong_length() {
    let short = Units::filled(5, 512, 4103);
    let mut left = short.clone();
    left.make_fresh(1);
    assert!(left == short, "a refused fresh");
}

/// "Fresh: item 0 lives, and one grant stands, to 0 on 0, right 0, depth 0." "The check knows 1, 2,
/// 3"; of dead items it says no.
#[test]
fn fresh() {
    let units = Units::fresh();
    units.check(YES, &[(0, 0, 0)]);
    units.check(NO, &[(0, 0, 1), (1, 0, 0)]);
    units.check((3, 0), &[(64, 0, 0), (0, 64, 0), (0, 0, 8)]);
    units.subjects(0, 1);
}

/// 3 beyond the limits, 4 where by is dead, 6 where on lives. "The lowest number that applies is
/// given".
#[test]
fn create_numbers() {
    let mut units = created();
    units.give(3, &[create(64, 5), create(0, 64), create(7, 64)]);
    units.give(4, &[create(7, 5), create(7, 3)]);
    units.give(6, &[create(0, 3), create(0, 0)]);
}

/// 3, 4, 5 where on or to is dead, 8 where by has no edit grant, the lowest first. "002's lists and
/// rows have no depth; there it is checked and then dropped."
#[test]
fn allow_numbers() {
    let mut units = created();
    units.give(0, &[allow(0, 3, 9, 1, 2)]);
    units.give(3, &[allow(0, 3, 9, 1, 8), allow(0, 3, 9, 8, 0), allow(0, 64, 9, 1, 0)]);
    units.give(3, &[allow(0, 3, 64, 1, 0), allow(64, 3, 9, 1, 0), allow(7, 3, 9, 1, 8)]);
    units.give(4, &[allow(7, 3, 9, 1, 0)]);
    units.give(5, &[allow(0, 5, 9, 1, 0), allow(0, 3, 6, 1, 0), allow(3, 5, 9, 1, 0)]);
    units.give(8, &[allow(3, 4, 9, 1, 0)]);
    units.give(0, &[allow(0, 3, 9, 0, 0), allow(3, 4, 9, 2, 7)]);
}

/// "that grant stands. An equal one already standing changes nothing."
#[test]
fn allow_stands() {
    let once = created().after(&[allow(0, 3, 9, 1, 2)]);
    assert!(once.clone().after(&[allow(0, 3, 9, 1, 2)]) == once, "an equal grant");
    let units = allowed();
    units.check(YES, &[(3, 9, 1), (4, 9, 2)]);
    units.check(NO, &[(4, 9, 1), (9, 3, 1)]);
}

/// The numbers of allow, the lowest first.
#[test]
fn withdraw_numbers() {
    let mut units = allowed();
    units.give(3, &[withdraw(0, 3, 9, 8)]);
    units.give(4, &[withdraw(7, 3, 9, 1)]);
    units.give(5, &[withdraw(0, 5, 9, 1), withdraw(0, 3, 6, 1)]);
    units.give(8, &[withdraw(4, 3, 9, 1)]);
}

/// "the persons with at least one grant": withdrawing a right never held takes nobody off, and only
/// the right withdrawn ends.
#[test]
fn withdraw_ends() {
    let mut units = allowed();
    units.give(0, &[withdraw(0, 3, 9, 5)]);
    units.subjects(0, 1 << 0 | 1 << 3 | 1 << 4);
    units.give(0, &[withdraw(0, 3, 9, 1)]);
    units.check(NO, &[(3, 9, 1)]);
    units.check(YES, &[(3, 9, 0)]);
    units.give(0, &[withdraw(0, 3, 9, 0)]);
    units.give(8, &[allow(3, 4, 9, 3, 0)]);
    units.subjects(0, 1 << 0 | 1 << 4);
}

/// 7, "delete: on is 0", comes before 8 and after 4.
#[test]
fn delete_numbers() {
    let mut units = withdrawn();
    units.give(3, &[delete(64, 9)]);
    units.give(4, &[delete(7, 9), delete(7, 0)]);
    units.give(5, &[delete(0, 5)]);
    units.give(7, &[delete(0, 0), delete(3, 0)]);
    units.give(8, &[delete(3, 4)]);
    units.give(6, &[create(0, 9)]);
}

/// "on leaves the roll, and each grant or loan that names it as person, item, lender or borrower
/// ends." One whose only grant was on it is no subject, and an item created again has nothing.
#[test]
fn delete_ends() {
    let mut units = withdrawn();
    units.give(0, &[allow(0, 3, 4, 1, 0), delete(0, 9)]);
    units.subjects(0, 1 << 0 | 1 << 3);
    units.check(NO, &[(4, 9, 2)]);
    units.give(0, &[create(0, 9)]);
    units.check(NO, &[(4, 9, 2)]);
    units.check(YES, &[(0, 9, 0)]);
    units.give(0, &[delete(0, 3)]);
    units.check(NO, &[(3, 4, 1)]);
    units.subjects(0, 1);
    units.give(0, &[create(0, 3)]);
    units.check(NO, &[(3, 4, 1)]);
    units.check(YES, &[(0, 3, 0)]);
}

/// "Withdrawing the last edit grant is permitted." Nobody has one there afterwards.
#[test]
fn last_edit_grant() {
    let mut units = recreated();
    units.give(0, &[withdraw(0, 0, 4, 0)]);
    units.give(8, &[allow(0, 3, 4, 1, 0), delete(0, 4)]);
    units.give(0, &[withdraw(0, 0, 0, 0)]);
    units.check(NO, &[(0, 0, 0)]);
    units.give(8, &[allow(0, 0, 0, 0, 0)]);
}

/// "Any living item may create." The creator has the edit grant: bit 63 of the subjects, and an
/// item that may delete itself only once that is granted to it.
#[test]
fn creator_edits() {
    let mut units = without_editors();
    units.give(0, &[create(0, 63)]);
    units.subjects(0, 1);
    units.give(0, &[create(63, 62)]);
    units.subjects(0, 1 << 63 | 1);
    units.give(0, &[delete(63, 62)]);
    units.subjects(0, 1);
    units.give(0, &[create(3, 11)]);
    units.give(8, &[delete(11, 11)]);
    units.give(0, &[allow(3, 11, 11, 0, 0), delete(11, 11)]);
    units.check(NO, &[(11, 11, 0)]);
}

/// "Lists turn into rows and rows into lists, by images." Both units were given the same commands,
/// so each turns into the other.
#[test]
fn converted() {
    let units = after_deletes().after(&[allow(0, 63, 9, 7, 0)]);
    units.check(YES, &[(63, 9, 7)]);
    let held = Units::filled(7, ListLayout::CELLS, RowLayout::CELLS);
    let converted = units.convert(0, held);
    assert!(converted == units, "converted");
    converted.check(YES, &[(63, 9, 7), (0, 3, 0)]);
    converted.check(NO, &[(3, 0, 0)]);
    let short = Units::filled(7, 512, 4103);
    assert!(units.convert(1, short.clone()) == short, "a refused conversion");
}

/// 1 comes before 2 and 3: the buffers hold no image in order, and one command names item 64.
#[test]
fn wrong_lengths() {
    Units::filled(0, 514, 4105).refuse(1, "one cell too many");
}

fn grant(person: u32, item: u32, right: u32) -> Grant {
    Grant { item, right, person, depth: 0 }
}

/// Item 0 alone lives, with its edit grant, and another grant stands.
fn fresh_and(added: Grant) -> Units {
    let mut journal = Journal::fresh();
    journal.grants.insert(added);
    Units::of(&journal)
}

/// "An image is in order when item 0 lives, no dead item is named in it". 2 comes before 3.
#[test]
fn not_in_order() {
    let rootless = Journal {
        live: BTreeSet::from([3]),
        grants: BTreeSet::from([grant(3, 3, 0)]),
        ..Journal::fresh()
    };
    Units::of(&rootless).refuse(2, "item 0 dead");
    fresh_and(grant(5, 0, 1)).refuse(2, "a dead person named");
    fresh_and(grant(0, 6, 1)).refuse(2, "a dead item named");
}

/// Conversions "judge only the image they read".
#[test]
fn converted_into_damaged() {
    let units = Units::fresh();
    let damaged = fresh_and(grant(0, 6, 1));
    assert!(units.convert(0, damaged) == units, "converted");
}
