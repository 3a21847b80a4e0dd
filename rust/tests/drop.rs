//! The command drop of the chain unit on fixed calls, and what lists and rows, which pass it over, say
//! beside it. Every expected value is worked out from requests K3 and K5 of document 02 and from document
//! 01; what stands in quotation marks is their text. After each call every byte is compared.

mod engine;
mod images;
mod model;
mod unit;

use engine::{check_chains, give_chains, Flat};
use images::Images;
use model::commands::{allow, allow_set, create, delete, drop, lend, recall, shift, withdraw};
use model::{Command, Grant, Journals, Layout, ListLayout, Numbers, RowLayout};
use unit::Unit;

/// The item that the grants are on, and 3's byte for right 1 there: 8 + 512·9 + 64·1 + 3.
const ON: u32 = 9;
const BYTE: usize = 4683;

/// The three units, and what their images must say.
#[derive(Clone)]
struct Units {
    images: Images,
    journals: Journals,
}

impl Units {
    /// The units after commands that each accepts which has them.
    fn after(commands: &[Command]) -> Self {
        let mut units = Self { images: Images::fresh(), journals: Journals::fresh() };
        units.give(commands);
        units
    }

    #[track_caller]
    fn give(&mut self, commands: &[Command]) {
        for &command in commands {
            let flat = Some(0).filter(|_| command.is_flat());
            self.answer(command, Numbers::counting_nothing(0, flat));
        }
    }

    /// Lists and rows answer with one number, and the chain unit with the other.
    #[track_caller]
    fn part(&mut self, command: Command, flat: u32, chains: u32) {
        self.answer(command, Numbers::counting_nothing(chains, Some(flat)));
    }

    #[track_caller]
    fn answer(&mut self, command: Command, numbers: Numbers) {
        assert_eq!(self.journals.give(command), numbers, "{command:?}");
        self.images.give_each(command, numbers);
        self.images.compare(&Images::of_both(&self.journals));
    }

    /// Each drop is accepted and "ends one grant", which stands: no other byte changes. No unit here has
    /// a loan.
    #[track_caller]
    fn ends(&mut self, drops: &[Command]) {
        for &command in drops {
            assert!(self.journals.chains.grants.remove(&grant_of(command)), "{command:?}");
            self.images.give(command, 0);
            self.images.compare(&Images::of_both(&self.journals));
        }
    }

    /// Each drop is accepted, and no byte changes: the grant does not stand.
    #[track_caller]
    fn ends_nothing(&mut self, drops: &[Command]) {
        for &command in drops {
            assert!(!self.journals.chains.grants.contains(&grant_of(command)), "{command:?}");
            self.images.give(command, 0);
            self.images.compare(&Images::of_both(&self.journals));
        }
    }

    /// Each command is refused with the number: "all unchanged".
    #[track_caller]
    fn refuse(&mut self, number: u32, commands: &[Command]) {
        for &command in commands {
            self.images.give(command, number);
            self.images.compare(&Images::of_both(&self.journals));
        }
    }

    /// Whether lists and rows say yes, and what the chain unit's yes has for depth.
    #[track_caller]
    fn check(&self, question: (u32, u32, u32), flat: bool, depth: Option<u32>) {
        let Images { lists, rows, grants, loans } = &self.images;
        let said = (0, u32::from(flat));
        assert_eq!(ListLayout::check(lists, question), said, "{question:?}");
        assert_eq!(RowLayout::check(rows, question), said, "{question:?}");
        let checked = check_chains(grants, loans, question, &mut [7; 8]);
        let found = Some(checked.depth).filter(|_| checked.persons > 0);
        assert_eq!((checked.number, found), (0, depth), "{question:?}");
    }
}

/// The grant that a drop names.
fn grant_of(command: Command) -> Grant {
    let Command::Drop { to, on, right, depth, .. } = command else {
        panic!("{command:?}");
    };
    Grant { item: on, right, person: to, depth }
}

/// 0 has made 3, 4 and 5, and 3 has made 9; 60 is dead, and 4 and 5 may edit nothing.
const MADE: [Command; 4] = [create(0, 3), create(0, 4), create(0, 5), create(3, ON)];

/// 3's own right 1 on 9 at depths 0, 3 and 7.
const DEPTHS: [Command; 3] = [allow(3, 3, ON, 1, 0), allow(3, 3, ON, 1, 3), allow(3, 3, ON, 1, 7)];

fn granted() -> Units {
    let mut units = Units::after(&MADE);
    units.give(&DEPTHS);
    units
}

/// "Byte 8 + 512·on + 64·right + person has bit d for each depth": 137 is 2^0 + 2^3 + 2^7. Lists and
/// rows have the grant throughout.
#[test]
fn one_grant_ends() {
    let mut units = granted();
    let flat = (units.images.lists.clone(), units.images.rows.clone());
    assert_eq!(units.images.grants[BYTE], 137);
    for (depth, left) in [(7, 9), (3, 1), (0, 0)] {
        units.ends(&[drop(3, 3, ON, 1, depth)]);
        assert_eq!(units.images.grants[BYTE], left);
    }
    assert!((units.images.lists, units.images.rows) == flat);
}

/// Persons 10 to 18, each but the last with a loan of depth 7 to the next, and 10 with right 5 on 9 at
/// depths 0, 3 and 7.
fn line_of_loans() -> Unit {
    let items: Vec<Command> = (10..=18).map(|on| create(0, on)).collect();
    let loans: Vec<Command> = (10..18).map(|by| lend(by, by + 1, 9, 5, 7, 0)).collect();
    let grants = [0, 3, 7].map(|depth| allow(0, 10, 9, 5, depth));
    Unit::base().after(&items).after(&loans).after(&grants)
}

/// The loans image without the lender's loans of the right on 9.
fn without(loans: &[u32], lender: u32, right: u32) -> Vec<u32> {
    let is_theirs =
        |word: u32| (word >> 18 & 63, word >> 12 & 63, word >> 9 & 7) == (lender, 9, right);
    let mut words: Vec<u32> = loans[1..].iter().copied().filter(|&word| word > 0).collect();
    words.retain(|&word| !is_theirs(word));
    let mut image = vec![loans[0] / 65_536 * 65_536 + words.len() as u32];
    image.extend(words);
    image.resize(1025, 0);
    image
}

/// "Managers want to lower a person's lending depth without closing the drawer." Depth 7 reaches 17,
/// depth 3 reaches 13, and with depth 0 10 lends to nobody. With the last depth 10's loan ends, and a
/// grant that it gets then reaches nobody else; the others' loans stay.
#[test]
fn depth_lowered() {
    let mut unit = line_of_loans();
    let loans = unit.loans.clone();
    unit.yes((10, 9, 5), 7, &[10]);
    unit.yes((17, 9, 5), 0, &[10, 11, 12, 13, 14, 15, 16, 17]);
    unit.give(0, &[drop(0, 10, 9, 5, 7)]);
    unit.yes((10, 9, 5), 3, &[10]);
    unit.yes((11, 9, 5), 2, &[10, 11]);
    unit.yes((13, 9, 5), 0, &[10, 11, 12, 13]);
    (14..=18).for_each(|who| unit.no((who, 9, 5)));
    unit.give(0, &[drop(0, 10, 9, 5, 3)]);
    unit.yes((10, 9, 5), 0, &[10]);
    (11..=18).for_each(|who| unit.no((who, 9, 5)));
    assert!(unit.loans == loans);
    unit.give(0, &[drop(0, 10, 9, 5, 0)]);
    (10..=18).for_each(|who| unit.no((who, 9, 5)));
    assert!(unit.loans == without(&loans, 10, 5));
    unit.give(0, &[allow(0, 10, 9, 5, 1)]);
    unit.yes((10, 9, 5), 1, &[10]);
    unit.no((11, 9, 5));
    unit.give(0, &[lend(10, 11, 9, 5, 7, 0)]);
    unit.yes((11, 9, 5), 0, &[10, 11]);
    assert!(unit.loans == loans);
}

/// A depth below the greatest: every answer is as it was.
#[test]
fn lesser_depths() {
    let mut unit = line_of_loans();
    unit.give(0, &[drop(0, 10, 9, 5, 3), drop(0, 10, 9, 5, 0)]);
    unit.yes((10, 9, 5), 7, &[10]);
    unit.yes((17, 9, 5), 0, &[10, 11, 12, 13, 14, 15, 16, 17]);
}

/// A grant that does not stand is no refusal, and nothing ends: where other depths stand, or other
/// persons, items and rights; the same drop twice.
#[test]
fn no_such_grant() {
    let mut units = granted();
    units.ends_nothing(&[1, 2, 4, 5, 6].map(|depth| drop(3, 3, ON, 1, depth)));
    units.ends_nothing(&[drop(3, 4, ON, 1, 7), drop(3, 3, ON, 2, 7), drop(0, 3, 4, 1, 7)]);
    units.ends_nothing(&[drop(3, ON, 9, 1, 7), drop(3, 0, ON, 0, 0), drop(3, 3, ON, 0, 7)]);
    units.ends(&[drop(3, 3, ON, 1, 3)]);
    units.ends_nothing(&[drop(3, 3, ON, 1, 3)]);
    units.give(&[allow(3, 3, ON, 1, 3)]);
    units.ends(&[drop(3, 3, ON, 1, 3)]);
}

/// Each right at each depth, where all of them stand, and beside persons and items that have them all.
#[test]
fn each_right_and_depth() {
    let mut full = Units::after(&MADE);
    let persons = 1 << 0 | 1 << 3 | 1 << 4;
    for (right, depth) in (0..64).map(|n| (n / 8, n % 8)) {
        full.give(&[allow_set(3, persons, ON, right, depth), allow(0, 3, 4, right, depth)]);
        full.give(&[allow(0, ON, 3, right, depth)]);
    }
    for (right, depth) in (0..64).map(|n| (n / 8, n % 8)) {
        let mut units = full.clone();
        units.ends(&[drop(3, 3, ON, right, depth)]);
        let byte = units.images.grants[8 + 512 * 9 + 64 * right as usize + 3];
        assert_eq!(byte, 255 - (1 << depth));
        units.give(&[allow(3, 3, ON, right, depth)]);
        units.images.compare(&full.images);
    }
}

/// What needs an edit grant on 9, by 3.
const NEED_EDIT: [Command; 6] = [
    allow(3, 3, ON, 0, 0),
    allow_set(3, 1 << 3 | 1 << 4, ON, 1, 0),
    withdraw(3, 3, ON, 1),
    drop(3, 3, ON, 1, 7),
    drop(3, 3, ON, 0, 0),
    delete(3, ON),
];

/// "Withdrawing the last edit grant is permitted", and so is dropping it, one's own too. Then 3 may
/// change nothing on 9, not even what does not stand; lists and rows still do all of it.
#[test]
fn own_last_edit_grant() {
    let mut units = granted();
    units.ends(&[drop(3, 3, ON, 0, 0)]);
    for command in NEED_EDIT {
        match command {
            Command::Drop { .. } => units.refuse(8, &[command]),
            _ => units.part(command, 0, 8),
        }
    }
    units.check((3, ON, 1), false, Some(7));
    let mut fresh = Units::after(&[]);
    fresh.ends(&[drop(0, 0, 0, 0, 0)]);
    fresh.refuse(8, &[shift(0, 1), drop(0, 0, 0, 0, 0), drop(0, 0, 0, 7, 7)]);
    fresh.give(&[create(0, 63)]);
}

/// "An edit grant on an item is one of right 0 there, at any depth": any of them is enough to drop by,
/// and with the last of them the right to do so ends.
#[test]
fn edit_grants_at_any_depth() {
    let mut units = granted();
    units.give(&[allow(3, 4, ON, 0, 2), allow(3, 4, ON, 0, 5)]);
    units.ends(&[drop(4, 3, ON, 0, 0)]);
    units.refuse(8, &[drop(3, 4, ON, 0, 2)]);
    units.ends(&[drop(4, 4, ON, 0, 2), drop(4, 3, ON, 1, 3), drop(4, 4, ON, 0, 5)]);
    units.refuse(8, &[drop(4, 4, ON, 0, 5), drop(4, 3, ON, 1, 7)]);
}

/// Each drop after each set of other ones, 1,024 steps: the images are those without the depths given
/// so far, and without the person's loans there where the last of them is among those. Every order of
/// the eight is made of such steps. What is left in the end.
fn every_order(unit: &Unit, to: u32, right: u32) -> Unit {
    let at = (8 + 512 * 9 + 64 * right + to) as usize;
    let after = |dropped: u8| {
        let mut due = unit.clone();
        due.grants[at] &= !dropped;
        if unit.grants[at] != 0 && due.grants[at] == 0 {
            due.loans = without(&unit.loans, to, right);
        }
        due
    };
    for dropped in 0..=255u8 {
        for depth in (0..8).filter(|depth| dropped >> depth & 1 == 0) {
            let next = after(dropped).after(&[drop(0, to, 9, right, depth)]);
            assert!(next == after(dropped | 1 << depth), "{depth} after {dropped:08b}");
        }
    }
    after(255)
}

/// "withdraw is eight drops": in every order they leave what withdraw leaves, where 4 has some depths
/// of right 1, 3 all of right 0 and the one of the base, and 5 none. 3, 4 and 5 have lent right 1.
#[test]
fn withdraw_is_eight_drops() {
    let mut unit = Unit::base().after(&[lend(5, 3, 9, 1, 2, 6), lend(4, 3, 9, 1, 2, 6)]);
    unit.give(0, &[0, 3, 7].map(|depth| allow(0, 4, 9, 1, depth)));
    (0..8).for_each(|depth| unit.give(0, &[allow(0, 3, 9, 0, depth)]));
    let grants = [(4, 1, true, 2), (3, 0, true, 4), (3, 1, true, 3), (5, 1, false, 4)];
    for (to, right, stood, loans) in grants {
        let at_once = unit.clone().after(&[withdraw(0, to, 9, right)]);
        assert!(every_order(&unit, to, right) == at_once);
        assert_eq!((at_once != unit, at_once.loans[0]), (stood, loans));
    }
}

/// "checked once before the first and done as one": a withdraw of one's own edit grants is done. Of
/// the drops one after another, those after the last depth that stands are refused with 8.
#[test]
fn withdraw_is_checked_once() {
    let mut units = granted();
    units.give(&[allow(3, 3, ON, 0, 2), allow(3, 3, ON, 0, 5)]);
    let mut at_once = units.clone();
    at_once.give(&[withdraw(3, 3, ON, 0)]);
    let orders = [
        ([0, 1, 2, 3, 4, 5, 6, 7], 6),
        ([7, 6, 5, 4, 3, 2, 1, 0], 8),
        ([5, 0, 2, 1, 3, 4, 6, 7], 3),
        ([1, 2, 3, 0, 4, 6, 7, 5], 8),
    ];
    for (order, accepted) in orders {
        let mut one_by_one = units.clone();
        for (turn, depth) in order.into_iter().enumerate() {
            let command = drop(3, 3, ON, 0, depth);
            if turn >= accepted {
                one_by_one.refuse(8, &[command]);
            } else if [0, 2, 5].contains(&depth) {
                one_by_one.ends(&[command]);
            } else {
                one_by_one.ends_nothing(&[command]);
            }
        }
        let (one, other) = (&one_by_one.images, &at_once.images);
        assert!(one.grants == other.grants && one.loans == other.loans);
    }
}

/// "drop has withdraw's refusals and 3 for the depth": for each of some by, to, on and right a drop at
/// any depth has the number that withdraw has, and at depth 8 it has 3. Of 7·7·7·4 there are 6·6·6·3
/// without 64 and 8, of which 2·6·6·3 are by the dead 60 or 63; of the other 4·6·6·3, 4·4·4·3 name no
/// dead item, and on each of the four items one of the four may edit.
#[test]
fn refusals_are_withdraws() {
    let Images { grants, loans, .. } = granted().images;
    let mut unit = Unit { grants, loans };
    let items = [0, 3, 4, ON, 60, 63, 64];
    let mut numbers = [0; 9];
    for n in 0..7 * 7 * 7 * 4 {
        let (by, to, on) = (items[n % 7], items[n / 7 % 7], items[n / 49 % 7]);
        let right = [0, 1, 7, 8][n / 343];
        let Unit { mut grants, mut loans } = unit.clone();
        let (number, _) = give_chains(&mut grants, &mut loans, withdraw(by, to, on, right));
        numbers[number as usize] += 1;
        (0..8).for_each(|depth| unit.clone().give(number, &[drop(by, to, on, right, depth)]));
        unit.give(3, &[drop(by, to, on, right, 8), drop(by, to, on, right, u32::MAX)]);
    }
    assert_eq!(numbers, [48, 0, 0, 724, 216, 240, 0, 0, 144]);
}

/// Each number comes before the next: 3 before 4, 5 and 8, 4 before 5 and 8, 5 before 8.
#[test]
fn order_of_numbers() {
    let mut units = granted();
    units.refuse(3, &[drop(60, 60, 60, 1, 8), drop(60, 60, 60, 8, 7), drop(64, 60, 60, 1, 7)]);
    units.refuse(3, &[drop(60, 64, 60, 1, 7), drop(60, 60, 64, 1, 7), drop(4, 3, ON, 1, 8)]);
    units.refuse(3, &[drop(3, 3, ON, 1, 8), drop(3, 60, ON, 1, 8), drop(60, 3, ON, 1, 8)]);
    units.refuse(4, &[drop(60, 60, 60, 1, 7), drop(60, 3, ON, 1, 7), drop(60, 60, ON, 1, 7)]);
    units.refuse(5, &[drop(3, 60, ON, 1, 7), drop(3, 3, 60, 1, 7), drop(3, 60, 60, 1, 7)]);
    units.refuse(5, &[drop(4, 60, ON, 1, 7), drop(4, 3, 60, 1, 7)]);
    units.refuse(8, &[drop(4, 3, ON, 1, 7), drop(0, 3, ON, 1, 7), drop(4, 4, ON, 1, 7)]);
    units.refuse(8, &[drop(4, 3, ON, 1, 6), drop(0, 0, ON, 0, 0), drop(3, 3, 0, 1, 7)]);
    units.ends(&[drop(3, 3, ON, 1, 7)]);
}

/// The last number that is accepted and the first that is not, of each argument. 64 and 8 look like 0
/// where they are cut, and 135 like 7.
#[test]
fn limits() {
    let mut units = Units::after(&[create(0, 63), allow(0, 63, 63, 0, 7)]);
    units.give(&[allow(63, 63, 63, 7, 7), allow(63, 0, 63, 7, 0)]);
    units.give(&[allow(0, 0, 0, 7, 7), allow(0, 0, 0, 7, 0)]);
    for beyond in [64, 127, 128, 256, 1 << 31, u32::MAX] {
        units.refuse(3, &[drop(beyond, 63, 63, 7, 7), drop(63, beyond, 63, 7, 7)]);
        units.refuse(3, &[drop(63, 63, beyond, 7, 7), drop(beyond, 0, 0, 7, 7)]);
    }
    for beyond in [8, 15, 16, 135, 256, 263, 1 << 31, u32::MAX] {
        units.refuse(3, &[drop(63, 63, 63, beyond, 7), drop(63, 63, 63, 7, beyond)]);
        units.refuse(3, &[drop(0, 0, 0, beyond, 0), drop(0, 0, 0, 7, beyond)]);
    }
    units.ends(&[drop(63, 63, 63, 7, 7), drop(63, 0, 63, 7, 0), drop(0, 0, 0, 7, 7)]);
    units.ends(&[drop(0, 0, 0, 7, 0), drop(63, 63, 63, 0, 7), drop(0, 0, 63, 0, 0)]);
    units.refuse(8, &[drop(63, 63, 63, 7, 7), drop(0, 0, 63, 0, 0)]);
}

/// Two drops of any two of these leave the same in either order.
#[test]
fn drops_commute() {
    let mut units = granted();
    units.give(&[allow(3, 4, ON, 1, 7), allow(3, 3, ON, 2, 7), allow(0, 3, 4, 1, 7)]);
    let drops = [
        drop(3, 3, ON, 1, 7),
        drop(3, 3, ON, 1, 0),
        drop(3, 4, ON, 1, 7),
        drop(3, 3, ON, 2, 7),
        drop(0, 3, 4, 1, 7),
    ];
    for (one, other) in (0..25).map(|n| (drops[n / 5], drops[n % 5])).filter(|(a, b)| a != b) {
        let (mut first, mut second) = (units.clone(), units.clone());
        first.ends(&[one, other]);
        second.ends(&[other, one]);
        first.images.compare(&second.images);
    }
}

/// "Lists and rows pass it over" and keep their state. 4 may edit 9 too, and ends 3's edit grant there.
/// For lists and rows 3 may still delete 9, and 0 makes it anew; for the chain unit 4 alone may edit it.
/// In the end it lives for lists and rows alone.
#[test]
fn units_part() {
    let mut units = Units::after(&MADE);
    units.give(&[allow(3, 4, ON, 0, 1)]);
    units.ends(&[drop(4, 3, ON, 0, 0)]);
    units.check((3, ON, 0), true, None);
    units.part(delete(3, ON), 0, 8);
    units.check((4, ON, 0), false, Some(1));
    units.part(allow(4, 4, ON, 1, 2), 5, 0);
    units.part(create(0, ON), 0, 6);
    units.check((0, ON, 0), true, None);
    units.part(allow(4, 4, ON, 1, 3), 8, 0);
    units.check((4, ON, 1), false, Some(3));
    units.part(allow_set(0, 1 << 3 | 1 << 5, ON, 1, 0), 0, 8);
    units.check((5, ON, 1), true, None);
    units.part(withdraw(4, 4, ON, 1), 8, 0);
    units.part(delete(4, ON), 8, 0);
    units.part(withdraw(0, 5, ON, 1), 0, 5);
    units.check((3, ON, 1), true, None);
    units.refuse(5, &[drop(0, 3, ON, 1, 0)]);
    let Images { lists, rows, .. } = &units.images;
    let persons = (0, 1 << 0 | 1 << 3);
    assert_eq!((ListLayout::subjects(lists), RowLayout::subjects(rows)), (persons, persons));
    let (mut to_rows, mut to_lists) = (vec![9; RowLayout::CELLS], vec![9; ListLayout::CELLS]);
    let converted =
        (ListLayout::convert(lists, &mut to_rows), RowLayout::convert(rows, &mut to_lists));
    assert!(converted == (0, 0) && to_rows == *rows && to_lists == *lists);
}

/// The chain unit's loans and shift stay, with 1,024 loans too, one of them past, drop refused or not,
/// those to a person whose last depth ends among them. That person's own 64 end, and no other.
#[test]
fn loans_and_shift_stay() {
    let dated = [recall(15, 7, 9, 1, 7, 0), lend(15, 7, 9, 1, 7, 5), shift(0, 6)];
    let mut unit = Unit::full().after(&dated).after(&[allow(0, 7, 9, 1, 2), allow(0, 7, 9, 1, 6)]);
    let (grants, loans) = (unit.grants.clone(), unit.loans.clone());
    assert_eq!(unit.loans[0], 6 * 65_536 + 1024);
    unit.give(0, &[drop(0, 7, 9, 1, 6)]);
    assert!(unit.loans == loans);
    unit.give(8, &[drop(1, 7, 9, 1, 2)]);
    unit.give(3, &[drop(0, 7, 9, 1, 8)]);
    unit.give(0, &[drop(0, 7, 9, 1, 6), drop(0, 8, 9, 1, 2), drop(0, 6, 9, 1, 2)]);
    assert!(unit.loans == loans && unit.grants != grants);
    unit.give(0, &[drop(0, 7, 9, 1, 2)]);
    assert_eq!(unit.loans[0], 6 * 65_536 + 960);
    assert!(unit.loans == without(&loans, 7, 1));
    unit.give(0, &[allow(0, 7, 9, 1, 2), allow(0, 7, 9, 1, 6)]);
    assert!(unit.grants == grants && unit.loans == without(&loans, 7, 1));
}

/// Images not in order and of wrong lengths: 2, and 1 before it, both before 3.
#[test]
fn no_image() {
    let commands = [drop(0, 0, 0, 0, 0), drop(64, 0, 0, 8, 8), drop(0, 60, 0, 1, 7)];
    let mut images = Vec::new();
    let mut rootless = Unit::base();
    rootless.grants[0] &= !1;
    images.push(rootless);
    let mut dead_person = Unit::base();
    dead_person.grants[BYTE + 57] = 1;
    images.push(dead_person);
    for (word, value) in [(0, 1), (0, 1025), (0, 256 << 16 | 2), (2, 823_841), (3, 1)] {
        let mut unit = Unit::base();
        unit.loans[word] = value;
        images.push(unit);
    }
    for mut unit in images {
        unit.give(2, &commands);
        unit.loans.push(0);
        unit.give(1, &commands);
        unit.loans.pop();
        unit.grants.pop();
        unit.give(1, &commands);
        unit.loans.truncate(2);
        unit.give(1, &commands);
    }
    Unit { grants: Vec::new(), loans: Vec::new() }.give(1, &commands);
}
