//! The command allowset of lists, rows and chain unit on fixed calls, each call to all three. Every
//! expected value is worked out from request K2 of document 02 and from document 01; what stands in
//! quotation marks is their text.

mod engine;
mod generator;
mod images;
mod model;
mod unit;

use engine::Flat;
use generator::Random;
use images::Images;
use model::commands::{allow, allow_set, create, delete, lend, recall, shift, withdraw};
use model::{Command, Grant, Journal, ListLayout, RowLayout};
use unit::Unit;

/// The item that the grants are on.
const ON: u32 = 9;

/// "bit i for item i".
fn set_of(items: impl IntoIterator<Item = u32>) -> u64 {
    items.into_iter().fold(0, |set, item| set | 1 << item)
}

/// The three units, and what their images must say.
#[derive(Clone)]
struct Units {
    images: Images,
    journal: Journal,
}

impl Units {
    /// Fresh units.
    fn fresh() -> Self {
        Self { images: Images::fresh(), journal: Journal::fresh() }
    }

    /// All 64 items live but for these, and 0 has created the others.
    fn without(dead: &[u32]) -> Self {
        let mut units = Self::fresh();
        for on in (1..64).filter(|on| !dead.contains(on)) {
            units.images.give(create(0, on), 0);
            units.journal.live.insert(on);
            units.journal.grants.insert(Grant { item: on, right: 0, person: 0, depth: 0 });
        }
        units
    }

    /// Each command is accepted by all three.
    #[track_caller]
    fn give(&mut self, commands: &[Command]) {
        for &command in commands {
            assert_eq!(self.journal.give(command), (0, 0), "{command:?}");
            self.images.give(command, 0);
            self.images.compare(&Images::of(&self.journal));
        }
    }

    /// The allowset is accepted: these persons have the grant then, and no other byte changes.
    #[track_caller]
    fn allow(&mut self, command: Command, persons: impl IntoIterator<Item = u32>) {
        let Command::AllowSet { on: item, right, depth, .. } = command else {
            panic!("{command:?}");
        };
        let grants = persons.into_iter().map(|person| Grant { item, right, person, depth });
        self.journal.grants.extend(grants);
        self.images.give(command, 0);
        self.images.compare(&Images::of(&self.journal));
    }

    /// Each command is refused by all three with the number: "or nothing".
    #[track_caller]
    fn refuse(&mut self, number: u32, commands: &[Command]) {
        let before = self.images.clone();
        for &command in commands {
            self.images.give(command, number);
            self.images.compare(&before);
        }
    }

    /// The persons who have the right, as lists and rows answer the check.
    fn granted(&self, on: u32, right: u32) -> u64 {
        let holds = |who: &u32| {
            let asked = (*who, on, right);
            let answers = [
                ListLayout::check(&self.images.lists, asked),
                RowLayout::check(&self.images.rows, asked),
            ];
            assert!(answers == [(0, 0); 2] || answers == [(0, 1); 2], "{asked:?}: {answers:?}");
            answers[0] == (0, 1)
        };
        set_of((0..64).filter(holds))
    }
}

/// Forty persons, 20 to 59.
const FORTY: std::ops::Range<u32> = 20..60;

/// "bit i for item i": the first bit and the last, in the cells of the paper's formulas. Word
/// 1 + 8·9 + 1 of the lists has both; of the rows bytes 8 + 64·0 + 9, with 0's edit right, and
/// 8 + 64·63 + 9; of the grants bytes 8 + 512·9 + 64·1 + 0 and 63 more.
#[test]
fn members_0_and_63() {
    let mut units = Units::without(&[]);
    units.allow(allow_set(0, 0x8000_0000_0000_0001, ON, 1, 2), [0, 63]);
    let Images { lists, rows, grants, .. } = &units.images;
    assert_eq!(lists[74], 0x8000_0000_0000_0001);
    assert_eq!((rows[17], rows[4049]), (1 << 0 | 1 << 1, 1 << 1));
    assert_eq!((grants[4680], grants[4743]), (1 << 2, 1 << 2));
    assert_eq!(units.granted(ON, 1), 0x8000_0000_0000_0001);
}

/// Each item as the one member, first and last bits of bytes and halves among them.
#[test]
fn each_member_alone() {
    let mut units = Units::without(&[]);
    for item in 0..64 {
        units.allow(allow_set(0, 1 << item, ON, 1, 2), [item]);
        assert_eq!(units.granted(ON, 1), u64::MAX >> (63 - item));
    }
}

#[test]
fn all_64() {
    let mut units = Units::without(&[]);
    units.allow(allow_set(0, u64::MAX, ON, 3, 7), 0..64);
    assert_eq!(units.images.lists[1 + 8 * 9 + 3], u64::MAX);
    assert_eq!(units.images.grants[8 + 512 * 9 + 64 * 3..][..64], [1 << 7; 64]);
    let persons = (0, u64::MAX);
    assert_eq!(ListLayout::subjects(&units.images.lists), persons);
    assert_eq!(RowLayout::subjects(&units.images.rows), persons);
}

/// "a slip halfway leaves half a team": with one dead member of forty, the first, the last or any
/// other, nobody gets the right.
#[test]
fn one_dead_of_forty() {
    for dead in FORTY {
        let mut units = Units::without(&[dead]);
        units.refuse(5, &[allow_set(0, set_of(FORTY), ON, 1, 2)]);
        assert_eq!(units.granted(ON, 1), 0);
        let living = FORTY.filter(|&item| item != dead);
        units.allow(allow_set(0, set_of(living.clone()), ON, 1, 2), living);
    }
}

/// Every number of 64 bits is a set: beyond the living ones it is refused with 5, and with 3 never.
#[test]
fn any_set() {
    let to_set = |set| allow_set(0, set, 0, 1, 2);
    for dead in [1, 31, 32, 62, 63] {
        let mut units = Units::without(&[dead]);
        units.refuse(5, &[u64::MAX, 1 << dead, 1 << dead | 1].map(to_set));
        units.allow(to_set(u64::MAX - (1 << dead)), (0..64).filter(|&item| item != dead));
    }
    let mut fresh = Units::fresh();
    fresh.refuse(5, &[u64::MAX, u64::MAX - 1, 2, 3, 1 << 63].map(to_set));
    fresh.allow(to_set(1), [0]);
}

/// 3 made item 9, and so may edit it. It gets the right just where it is a member, and so does 9.
#[test]
fn by_and_on_as_members() {
    let mut units = Units::without(&[ON]);
    units.give(&[create(3, ON)]);
    units.allow(allow_set(3, set_of([4, 5]), ON, 1, 2), [4, 5]);
    units.allow(allow_set(3, set_of([3, 4]), ON, 2, 2), [3, 4]);
    units.allow(allow_set(3, set_of([3, ON]), ON, 3, 2), [3, ON]);
    units.allow(allow_set(3, set_of([3]), ON, 4, 2), [3]);
    units.refuse(8, &[allow_set(0, set_of([0, 3]), ON, 5, 2)]);
}

/// Item 9 is made by 3; 60 is dead, 4 lives and may edit nothing.
fn edited_by_3() -> Units {
    let mut units = Units::without(&[ON, 60]);
    units.give(&[create(3, ON)]);
    units
}

/// "14 when the set is empty, straight after 3": after every way to be out of range, and before a
/// dead `by`, a dead `on` and no edit grant, alone and together.
#[test]
fn empty_set() {
    let mut units = edited_by_3();
    for (by, on) in [(3, ON), (60, ON), (3, 60), (60, 60), (4, ON), (4, 60)] {
        units.refuse(14, &[allow_set(by, 0, on, 1, 2), allow_set(by, 0, on, 0, 0)]);
        units.refuse(3, &[allow_set(64, 0, on, 1, 2), allow_set(by, 0, 64, 1, 2)]);
        units.refuse(3, &[allow_set(by, 0, on, 8, 2), allow_set(by, 0, on, 1, 8)]);
    }
}

/// The empty set in units whose images are refused: 1 and 2 come before 3 and 14.
#[test]
fn empty_set_of_no_image() {
    let commands = [allow_set(0, 0, 0, 1, 2), allow_set(64, 0, 64, 8, 8), allow_set(0, 1, 0, 1, 2)];
    let mut rootless = Units::fresh();
    rootless.images.lists[0] = 0;
    rootless.images.rows[0] = 0;
    rootless.images.grants[0] = 0;
    rootless.refuse(2, &commands);
    let Images { lists, rows, grants, .. } = &mut rootless.images;
    lists.pop();
    rows.pop();
    grants.pop();
    rootless.refuse(1, &commands);
    let mut unit = Unit::fresh();
    unit.loans[0] = 1;
    unit.give(2, &commands);
    unit.loans.push(0);
    unit.give(1, &commands);
}

/// "the lowest refusal's number": 4 before 5 and 8, 5 before 8. Of the members one dead is enough,
/// wherever it stands among those that live.
#[test]
fn order_of_numbers() {
    let mut units = edited_by_3();
    let (living, one_dead) = (set_of([0, 4, 63]), set_of([0, 4, 60, 63]));
    units.refuse(3, &[allow_set(64, one_dead, 60, 1, 2), allow_set(60, one_dead, 64, 1, 2)]);
    units.refuse(3, &[allow_set(60, one_dead, 60, 8, 2), allow_set(60, one_dead, 60, 1, 8)]);
    for set in [living, one_dead, 1 << 60] {
        units.refuse(4, &[allow_set(60, set, ON, 1, 2), allow_set(60, set, 60, 1, 2)]);
        units.refuse(5, &[allow_set(3, set, 60, 1, 2), allow_set(4, set, 60, 1, 2)]);
    }
    for by in [3, 4] {
        units.refuse(5, &[allow_set(by, one_dead, ON, 1, 2), allow_set(by, 1 << 60, ON, 1, 2)]);
    }
    units.refuse(8, &[allow_set(4, living, ON, 1, 2), allow_set(0, living, ON, 0, 0)]);
    units.allow(allow_set(3, living, ON, 1, 2), [0, 4, 63]);
}

/// "An equal one already standing changes nothing."
#[test]
fn twice() {
    let mut units = Units::without(&[]);
    units.allow(allow_set(0, set_of(FORTY), ON, 1, 2), FORTY);
    let once = units.images.clone();
    units.allow(allow_set(0, set_of(FORTY), ON, 1, 2), []);
    units.images.compare(&once);
    units.allow(allow_set(0, set_of([20, 59]), ON, 1, 2), []);
    units.allow(allow_set(0, set_of([19, 20]), ON, 1, 2), [19]);
}

/// A set of one does what allow does, and is refused where allow is.
#[test]
fn one_member_is_an_allow() {
    let mut units = edited_by_3();
    for (to, right, depth) in [(0, 1, 0), (3, 0, 7), (4, 7, 3), (ON, 2, 2), (63, 0, 0)] {
        let mut other = units.clone();
        units.allow(allow_set(3, 1 << to, ON, right, depth), [to]);
        other.give(&[allow(3, to, ON, right, depth)]);
        units.images.compare(&other.images);
    }
    let refused = [(4, 60, 4, ON), (5, 3, 60, ON), (5, 3, 4, 60), (5, 4, 60, ON), (8, 4, 0, ON)];
    for (number, by, to, on) in refused {
        units.refuse(number, &[allow(by, to, on, 1, 2), allow_set(by, 1 << to, on, 1, 2)]);
    }
}

/// The forty in several orders: rising, falling, from the middle on, and shuffled.
fn orders() -> Vec<Vec<u32>> {
    let rising: Vec<u32> = FORTY.collect();
    let mut orders = vec![rising.clone(), rising.iter().rev().copied().collect()];
    orders.push([&rising[20..], &rising[..20]].concat());
    let mut random = Random::new(40);
    for _ in 0..5 {
        let mut order = rising.clone();
        (1..order.len()).for_each(|last| order.swap(last, random.below(last as u32 + 1) as usize));
        orders.push(order);
    }
    orders
}

/// "It does what the single allows do in any order". Some of the forty have the right before, at
/// that depth or at another.
#[test]
fn single_allows_in_several_orders() {
    for (right, depth) in [(1, 2), (0, 0), (7, 7)] {
        let mut before = Units::without(&[]);
        before.give(&[allow(0, 21, ON, right, depth), allow(0, 22, ON, right, (depth + 3) % 8)]);
        let mut at_once = before.clone();
        at_once.allow(allow_set(0, set_of(FORTY), ON, right, depth), FORTY);
        for order in orders() {
            let mut one_by_one = before.clone();
            order.iter().for_each(|&to| one_by_one.give(&[allow(0, to, ON, right, depth)]));
            one_by_one.images.compare(&at_once.images);
        }
    }
}

/// The last number that is accepted and the first that is not, for `by`, `on`, right and depth. 64
/// and 8 look like 0 where they are cut.
#[test]
fn limits() {
    let mut units = Units::without(&[63]);
    units.give(&[create(0, 63), allow(0, 63, 63, 0, 0)]);
    units.allow(allow_set(63, set_of([0, 63]), 63, 7, 7), [0, 63]);
    for beyond in [64, 127, 128, 256, 1 << 31, u32::MAX] {
        units.refuse(3, &[allow_set(beyond, 1, 63, 7, 7), allow_set(63, 1, beyond, 7, 7)]);
    }
    for beyond in [8, 15, 16, 256, 1 << 31, u32::MAX] {
        units.refuse(3, &[allow_set(63, 1, 63, beyond, 7), allow_set(63, 1, 63, 7, beyond)]);
    }
}

/// Every right at every depth.
#[test]
fn each_right_and_depth() {
    let mut units = Units::without(&[]);
    for (right, depth) in (0..64).map(|n| (n / 8, n % 8)) {
        units.allow(allow_set(0, set_of([3, 63]), ON, right, depth), [3, 63]);
    }
    assert_eq!(units.images.grants[8 + 512 * 9 + 64 * 7 + 63], 255);
    assert_eq!(units.images.rows[8 + 64 * 63 + 9], 255);
}

/// Right 0 is the right to edit, "at any depth": each member may then do on 9 what 0 may.
#[test]
fn editors() {
    let mut units = Units::without(&[]);
    units.refuse(8, &[allow_set(3, set_of([4, 5]), ON, 1, 2), delete(4, ON)]);
    units.allow(allow_set(0, set_of([3, 4]), ON, 0, 5), [3, 4]);
    units.allow(allow_set(3, set_of([4, 5]), ON, 1, 2), [4, 5]);
    units.refuse(8, &[allow_set(5, set_of([4, 5]), ON, 1, 2)]);
    units.give(&[withdraw(4, 3, ON, 0), withdraw(4, 0, ON, 0)]);
    units.refuse(8, &[3, 0].map(|by| allow_set(by, set_of([3]), ON, 1, 2)));
    units.give(&[delete(4, ON)]);
    units.refuse(5, &[allow_set(4, set_of([4, 5]), ON, 1, 2)]);
}

/// "that grant stands" beside those at other depths, in the chain unit; in lists and rows the depth
/// "is checked and then dropped".
#[test]
fn beside_other_depths() {
    let mut units = Units::without(&[]);
    units.give(&[allow(0, 3, ON, 1, 5)]);
    let flat = units.images.clone();
    units.allow(allow_set(0, set_of([3]), ON, 1, 2), [3]);
    units.allow(allow_set(0, set_of([3]), ON, 1, 7), [3]);
    assert!(units.images.lists == flat.lists && units.images.rows == flat.rows);
    assert_eq!(units.images.grants[8 + 512 * 9 + 64 + 3], 1 << 2 | 1 << 5 | 1 << 7);
}

/// The chain unit's loans and shift stay, with 1,024 loans too, one of them past, and refused or not.
#[test]
fn loans_and_shift_stay() {
    let dated = [recall(15, 7, 9, 1, 7, 0), lend(15, 7, 9, 1, 7, 5), shift(0, 6)];
    let mut unit = Unit::full().after(&dated);
    let loans = unit.loans.clone();
    unit.give(0, &[allow_set(0, set_of(0..16), 9, 1, 7), allow_set(0, set_of([3, 4]), 9, 0, 1)]);
    assert!(unit.loans == loans);
    unit.give(5, &[allow_set(0, set_of(0..17), 9, 1, 7)]);
    unit.give(14, &[allow_set(0, 0, 9, 1, 7)]);
    assert!(unit.loans == loans);
}

/// Each member is the beginning of chains: 4 lends on what the allowset gave it, at one depth less.
#[test]
fn chains_from_members() {
    let mut unit = Unit::base().after(&[lend(4, 5, 9, 2, 7, 0)]);
    unit.no((5, 9, 2));
    unit.give(5, &[allow_set(0, set_of([3, 4, 7]), 9, 2, 3)]);
    unit.no((5, 9, 2));
    unit.give(0, &[allow_set(0, set_of([3, 4]), 9, 2, 3)]);
    unit.yes((3, 9, 2), 3, &[3]);
    unit.yes((4, 9, 2), 3, &[4]);
    unit.yes((5, 9, 2), 2, &[4, 5]);
    unit.no((0, 9, 2));
    unit.give(0, &[withdraw(0, 4, 9, 2)]);
    unit.no((5, 9, 2));
    unit.yes((3, 9, 2), 3, &[3]);
}
