//! The types that own their images: every method, its arguments all different, by what it answers
//! and by every byte of the images after it, which are compared with those of the paper's formulas.

mod model;

use model::commands::{
    allow, allow_set, create, delete, drop, lend, recall, shift, sweep, withdraw,
};
use model::{
    image_of, loans_image, ticket_image, Command, GrantLayout, Journal, ListLayout, RowLayout,
    TicketCommand, TicketState,
};
use rights::{
    answer, lent, Chains, Depth, Item, ItemSet, Lists, Refusal, Right, Rows, Shift, Ticket,
    TicketNumber, Tickets,
};

/// A type that owns its images.
trait Owned {
    /// What the command counts, 0 of one that counts nothing, or its refusal.
    fn give(&mut self, command: Command) -> Result<u32, Refusal>;

    /// The images are those of the journal.
    #[track_caller]
    fn assert_says(&self, journal: &Journal);
}

/// The method of each command that every unit has, and beside it the arms given.
macro_rules! by_method {
    ($unit:ident, $command:ident, $($others:tt)*) => {{
        let done = match $command {
            Command::Create { by, on } => $unit.create(Item(by), Item(on)),
            Command::Delete { by, on } => $unit.delete(Item(by), Item(on)),
            Command::Allow { by, to, on, right, depth } => {
                $unit.allow(Item(by), Item(to), Item(on), Right(right), Depth(depth))
            }
            Command::AllowSet { by, set, on, right, depth } => {
                $unit.allow_set(Item(by), ItemSet(set), Item(on), Right(right), Depth(depth))
            }
            Command::Withdraw { by, to, on, right } => {
                $unit.withdraw(Item(by), Item(to), Item(on), Right(right))
            }
            $($others)*
        };
        done.map(|()| 0)
    }};
}

macro_rules! own_flat {
    ($unit:ident, $layout:ident) => {
        impl Owned for $unit {
            fn give(&mut self, command: Command) -> Result<u32, Refusal> {
                by_method!(self, command, _ => unreachable!("neither drops nor loans nor shifts nor sweeps"))
            }

            fn assert_says(&self, journal: &Journal) {
                assert!(self.image()[..] == image_of::<$layout>(journal), "image");
            }
        }
    };
}

own_flat!(Lists, ListLayout);
own_flat!(Rows, RowLayout);

impl Owned for Chains {
    fn give(&mut self, command: Command) -> Result<u32, Refusal> {
        by_method!(self, command,
            Command::Drop { by, to, on, right, depth } => {
                self.drop_grant(Item(by), Item(to), Item(on), Right(right), Depth(depth))
            }
            Command::Lend { by, to, on, right, depth, last } => {
                self.lend(Item(by), Item(to), Item(on), Right(right), Depth(depth), Shift(last))
            }
            Command::Recall { by, to, on, right, depth, last } => {
                self.recall(Item(by), Item(to), Item(on), Right(right), Depth(depth), Shift(last))
            }
            Command::Shift { by, now } => self.shift(Item(by), Shift(now)),
            Command::Sweep { by } => return self.sweep(Item(by)),
        )
    }

    fn assert_says(&self, journal: &Journal) {
        assert!(self.grants()[..] == image_of::<GrantLayout>(journal), "grants");
        assert!(self.loans()[..] == loans_image(journal), "loans");
    }
}

/// Gives each command to the unit and to the journal; both answer alike, and the images are the
/// journal's after each.
#[track_caller]
fn give(unit: &mut impl Owned, journal: &mut Journal, commands: &[Command]) {
    for &command in commands {
        let (number, count) = journal.give(command);
        assert_eq!(unit.give(command), answer(number).map(|()| count), "{command:?}");
        unit.assert_says(journal);
    }
}

/// Items 3, 5, 9 and 12 live, and 3 may edit 9; 3 grants and lends right 5 on 9 to 12, the loan up
/// to shift 7, and grants right 6 there to 0 and 12.
const ITEMS: [Command; 4] = [create(0, 3), create(0, 5), create(3, 9), create(0, 12)];
const GRANT: Command = allow(3, 12, 9, 5, 2);
const GRANTS: Command = allow_set(3, 1 << 0 | 1 << 12, 9, 6, 2);
const END_OF_GRANT: Command = withdraw(3, 12, 9, 5);
const END_OF_ITEM: Command = delete(3, 9);
const LOAN: Command = lend(3, 12, 9, 5, 2, 7);
const END_OF_LOAN: Command = recall(3, 12, 9, 5, 2, 7);

/// One refused command for each number that a command of every unit can have, from 3 on, and one
/// allowset for each that it can have.
const REFUSED: [(Command, Refusal); 11] = [
    (create(0, 64), Refusal::OutOfRange),
    (create(7, 8), Refusal::ByDead),
    (withdraw(0, 3, 7, 1), Refusal::NamedDead),
    (create(0, 3), Refusal::AlreadyLive),
    (delete(3, 0), Refusal::RootItem),
    (allow(12, 3, 9, 1, 0), Refusal::NoEdit),
    (allow_set(3, 1 << 12, 9, 6, 8), Refusal::OutOfRange),
    (allow_set(3, 0, 9, 6, 1), Refusal::EmptySet),
    (allow_set(7, 1 << 12, 9, 6, 1), Refusal::ByDead),
    (allow_set(3, 1 << 12 | 1 << 63, 9, 6, 1), Refusal::NamedDead),
    (allow_set(12, 1 << 3, 9, 6, 1), Refusal::NoEdit),
];

fn refuse(unit: &mut impl Owned, journal: &mut Journal) {
    for (command, refusal) in REFUSED {
        assert_eq!(unit.give(command), Err(refusal), "{command:?}");
        give(unit, journal, &[command]);
    }
}

/// Lists and rows, which have the same methods.
macro_rules! flat {
    ($module:ident, $unit:ident) => {
        mod $module {
            use super::*;

            static UNIT: std::sync::Mutex<$unit> = std::sync::Mutex::new($unit::fresh());

            fn created() -> ($unit, Journal) {
                let (mut unit, mut journal) = ($unit::fresh(), Journal::fresh());
                give(&mut unit, &mut journal, &ITEMS);
                (unit, journal)
            }

            /// The cells written out in the crate are those that the engine writes.
            #[test]
            fn fresh() {
                let mut image = $unit::fresh().image().map(|_| 9);
                assert_eq!(lent::$module::fresh(&mut image), 0);
                assert!($unit::fresh().image() == &image && $unit::default().image() == &image);
                assert!(UNIT.lock().expect("the unit").image() == &image);
            }

            #[test]
            fn commands() {
                let (mut unit, mut journal) = created();
                give(&mut unit, &mut journal, &[GRANT, GRANTS]);
                refuse(&mut unit, &mut journal);
                give(&mut unit, &mut journal, &[END_OF_GRANT, END_OF_ITEM]);
            }

            #[test]
            fn check() {
                let (mut unit, mut journal) = created();
                assert_eq!(unit.check(Item(12), Item(9), Right(5)), Ok(false));
                give(&mut unit, &mut journal, &[GRANT]);
                assert_eq!(unit.check(Item(12), Item(9), Right(5)), Ok(true));
                for (who, on, right) in [(9, 12, 5), (12, 9, 4), (3, 9, 5), (12, 5, 5)] {
                    assert_eq!(unit.check(Item(who), Item(on), Right(right)), Ok(false));
                }
                for (who, on, right) in [(64, 9, 5), (12, 64, 5), (12, 9, 8)] {
                    let answer = unit.check(Item(who), Item(on), Right(right));
                    assert_eq!(answer, Err(Refusal::OutOfRange));
                }
            }

            #[test]
            fn subjects() {
                let (mut unit, mut journal) = created();
                assert_eq!(unit.subjects(), 1 << 0 | 1 << 3);
                give(&mut unit, &mut journal, &[GRANT]);
                assert_eq!(unit.subjects(), 1 << 0 | 1 << 3 | 1 << 12);
                assert!(ItemSet(unit.subjects()).iter().eq([Item(0), Item(3), Item(12)]));
                give(&mut unit, &mut journal, &[END_OF_ITEM]);
                assert_eq!(unit.subjects(), 1 << 0);
            }

            #[test]
            fn stored() {
                let (mut unit, mut journal) = created();
                give(&mut unit, &mut journal, &[GRANT]);
                let mut image = unit.image().to_vec();
                $unit::from_image(&image).expect("in order").assert_says(&journal);
                let refused = |image: &[_]| $unit::from_image(image).expect_err("refused");
                assert_eq!(refused(&image[1..]), Refusal::WrongLength);
                assert_eq!(refused(&[]), Refusal::WrongLength);
                image.push(0);
                assert_eq!(refused(&image), Refusal::WrongLength);
                image.pop();
                image[0] &= !1;
                assert_eq!(refused(&image), Refusal::NotInOrder);
            }
        }
    };
}

flat!(lists, Lists);
flat!(rows, Rows);

#[test]
fn converted() {
    let (mut lists, mut journal) = (Lists::fresh(), Journal::fresh());
    give(&mut lists, &mut journal, &ITEMS);
    give(&mut lists, &mut journal, &[GRANT]);
    let rows = Rows::from(&lists);
    rows.assert_says(&journal);
    Lists::from(&rows).assert_says(&journal);
}

mod chains {
    use super::*;
    use std::mem::MaybeUninit;

    /// The unit after these commands too, and its journal.
    fn created_and(more: &[Command]) -> (Chains, Journal) {
        let (mut unit, mut journal) = (Chains::fresh(), Journal::fresh());
        give(&mut unit, &mut journal, &ITEMS);
        give(&mut unit, &mut journal, more);
        (unit, journal)
    }

    /// The cells written out in the crate are those that the engine writes.
    #[test]
    fn fresh() {
        let (mut grants, mut loans) = (vec![9; 32_776], vec![9; 1025]);
        assert_eq!(lent::chains::fresh(&mut grants, &mut loans), 0);
        for unit in [Chains::fresh(), Chains::default()] {
            assert!(unit.grants()[..] == grants && unit.loans()[..] == loans);
        }
    }

    #[test]
    fn commands() {
        let (mut unit, mut journal) = created_and(&[GRANT, GRANTS, LOAN]);
        refuse(&mut unit, &mut journal);
        assert_eq!(unit.give(lend(3, 12, 9, 0, 2, 0)), Err(Refusal::EditRight));
        unit.assert_says(&journal);
        give(&mut unit, &mut journal, &[END_OF_GRANT, END_OF_LOAN, GRANT, LOAN, END_OF_ITEM]);
    }

    /// 12 has right 5 on 9 at depths 1, 2 and 4. Each drop ends its own, and a withdraw what is left;
    /// 3's loan stays. Each refusal by its name.
    #[test]
    fn drops() {
        let deeper = [GRANT, allow(3, 12, 9, 5, 4), allow(3, 12, 9, 5, 1), LOAN];
        let (mut unit, mut journal) = created_and(&deeper);
        let byte = |unit: &Chains| unit.grants()[8 + 512 * 9 + 64 * 5 + 12];
        assert_eq!(byte(&unit), 1 << 1 | 1 << 2 | 1 << 4);
        give(&mut unit, &mut journal, &[drop(3, 12, 9, 5, 4)]);
        assert_eq!(byte(&unit), 1 << 1 | 1 << 2);
        give(&mut unit, &mut journal, &[drop(3, 12, 9, 5, 4), drop(3, 12, 9, 5, 1)]);
        assert_eq!(byte(&unit), 1 << 2);
        let refused = [
            (drop(3, 12, 9, 5, 8), Refusal::OutOfRange),
            (drop(7, 12, 9, 5, 2), Refusal::ByDead),
            (drop(3, 7, 9, 5, 2), Refusal::NamedDead),
            (drop(3, 12, 7, 5, 2), Refusal::NamedDead),
            (drop(12, 3, 9, 0, 0), Refusal::NoEdit),
        ];
        for (command, refusal) in refused {
            assert_eq!(unit.give(command), Err(refusal), "{command:?}");
            give(&mut unit, &mut journal, &[command]);
        }
        give(&mut unit, &mut journal, &[END_OF_GRANT, drop(3, 3, 9, 0, 0)]);
        assert_eq!((byte(&unit), unit.give(END_OF_ITEM)), (0, Err(Refusal::NoEdit)));
        assert_eq!(unit.loans()[0], 1);
    }

    /// K5: 3 has right 5 on 9 at depths 1 and 4, and has lent it to 12 and 5. Both loans end with the
    /// second of the depths, by a drop and by a withdraw, and 12's stays.
    #[test]
    fn loans_end_with_the_last_grant() {
        let loans = [LOAN, lend(3, 5, 9, 5, 0, 0), lend(12, 5, 9, 5, 1, 0)];
        let depths = [allow(3, 3, 9, 5, 1), allow(3, 3, 9, 5, 4)];
        let word = (12 << 18) + (9 << 12) + (5 << 9) + (5 << 3) + 1;
        for last in [drop(3, 3, 9, 5, 4), withdraw(3, 3, 9, 5)] {
            let (mut unit, mut journal) = created_and(&[depths[0], depths[1]]);
            give(&mut unit, &mut journal, &loans);
            give(&mut unit, &mut journal, &[drop(3, 3, 9, 5, 1)]);
            assert_eq!(unit.loans()[0], 3);
            give(&mut unit, &mut journal, &[last]);
            assert_eq!(unit.loans()[..3], [1, word, 0]);
        }
    }

    /// The loan as the paper writes it down, and that a recall ends it and no other.
    #[test]
    fn recall_ends_a_loan() {
        let (mut unit, mut journal) = created_and(&[LOAN, lend(3, 12, 9, 5, 1, 7)]);
        let word = (7 << 24) + (3 << 18) + (9 << 12) + (5 << 9) + (12 << 3);
        assert_eq!(unit.loans()[..4], [2, word + 1, word + 2, 0]);
        give(&mut unit, &mut journal, &[END_OF_LOAN]);
        assert_eq!(unit.loans()[..4], [1, word + 1, 0, 0]);
        assert_eq!(unit.give(recall(3, 12, 9, 5, 8, 0)), Err(Refusal::OutOfRange));
        assert_eq!(unit.give(recall(3, 12, 9, 5, 1, 256)), Err(Refusal::OutOfRange));
        unit.assert_says(&journal);
    }

    /// By 3, who may edit item 0 too: shift 7 is the loan's last and 8 is past it. Each refusal by
    /// its name.
    #[test]
    fn shifts() {
        let (mut unit, mut journal) = created_and(&[allow(0, 3, 0, 0, 1), LOAN, shift(3, 7)]);
        assert_eq!(unit.loans()[0], (7 << 16) + 1);
        give(&mut unit, &mut journal, &[LOAN, shift(3, 8), lend(3, 12, 9, 5, 2, 0)]);
        assert_eq!(unit.loans()[0], (8 << 16) + 2);
        let refused = [
            (shift(3, 256), Refusal::OutOfRange),
            (lend(3, 12, 9, 5, 2, 256), Refusal::OutOfRange),
            (shift(4, 9), Refusal::ByDead),
            (shift(5, 9), Refusal::NoEdit),
            (shift(3, 7), Refusal::ShiftBack),
            (LOAN, Refusal::LastPast),
        ];
        for (command, refusal) in refused {
            assert_eq!(unit.give(command), Err(refusal), "{command:?}");
            give(&mut unit, &mut journal, &[command]);
        }
        give(&mut unit, &mut journal, &[END_OF_LOAN, shift(3, 7), LOAN]);
    }

    /// The loan ends with a sweep in shift 8, and not in 7, its last; the one that is open-ended stays. By
    /// 5, who may edit nothing; each refusal by its name.
    #[test]
    fn sweeps() {
        let loans = [LOAN, lend(3, 12, 9, 5, 1, 6), lend(3, 12, 9, 5, 2, 0), shift(0, 7)];
        let (mut unit, mut journal) = created_and(&loans);
        assert_eq!(unit.give(sweep(5)), Ok(1));
        assert_eq!(journal.give(sweep(5)), (0, 1));
        unit.assert_says(&journal);
        give(&mut unit, &mut journal, &[sweep(5), shift(0, 8)]);
        for (by, refusal) in [(64, Refusal::OutOfRange), (4, Refusal::ByDead)] {
            assert_eq!(unit.give(sweep(by)), Err(refusal), "by {by}");
            give(&mut unit, &mut journal, &[sweep(by)]);
        }
        assert_eq!(unit.clone().give(sweep(5)), Ok(1));
        give(&mut unit, &mut journal, &[sweep(5), sweep(5)]);
        let word = (3 << 18) + (9 << 12) + (5 << 9) + (12 << 3) + 2;
        assert_eq!(unit.loans()[..3], [(8 << 16) + 1, word, 0]);
    }

    /// The loan gives 12 the right in shift 7, its last, and no longer in shift 8.
    #[test]
    fn check_in_shifts() {
        let (mut unit, mut journal) = created_and(&[allow(3, 3, 9, 5, 4), LOAN]);
        for (now, yes) in [(7, true), (8, false)] {
            give(&mut unit, &mut journal, &[shift(0, now)]);
            let answer = unit.check(Item(12), Item(9), Right(5)).expect("an answer");
            assert_eq!(answer.yes(), yes, "in shift {now}");
        }
    }

    #[test]
    fn check() {
        let (mut unit, mut journal) = created_and(&[]);
        let ask = |unit: &Chains, who, on, right| unit.check(Item(who), Item(on), Right(right));
        let no = ask(&unit, 12, 9, 5).expect("an answer");
        assert_eq!((no.yes(), no.depth(), no.persons()), (false, Depth(0), &[][..]));
        give(&mut unit, &mut journal, &[allow(3, 3, 9, 5, 4), LOAN, lend(12, 5, 9, 5, 7, 0)]);
        let yes = ask(&unit, 12, 9, 5).expect("an answer");
        assert_eq!((yes.yes(), yes.depth()), (true, Depth(2)));
        assert_eq!(yes.persons(), [Item(3), Item(12)]);
        let longer = ask(&unit, 5, 9, 5).expect("an answer");
        assert_eq!((longer.yes(), longer.depth()), (true, Depth(1)));
        assert_eq!(longer.persons(), [Item(3), Item(12), Item(5)]);
        assert_eq!(ask(&unit, 9, 12, 5), Ok(no));
        for (who, on, right) in [(64, 9, 5), (12, 64, 5), (12, 9, 8)] {
            assert_eq!(ask(&unit, who, on, right), Err(Refusal::OutOfRange));
        }
        unit.assert_says(&journal);
    }

    /// What is made of stored images, if anything, by value and in place.
    fn stored(grants: &[u8], loans: &[u32]) -> Result<Chains, Refusal> {
        let unit = Chains::from_images(grants, loans);
        let mut place = MaybeUninit::uninit();
        let in_place = Chains::from_images_in(&mut place, grants, loans);
        assert!(in_place.map(|unit| unit.clone()) == unit, "in place");
        let (mut loaded, journal) = created_and(&[]);
        match loaded.load(grants, loans) {
            Ok(()) => assert!(Ok(&loaded) == unit.as_ref(), "loaded"),
            Err(refusal) => {
                assert_eq!(unit.as_ref(), Err(&refusal));
                loaded.assert_says(&journal);
            }
        }
        unit
    }

    #[test]
    fn stored_in_order() {
        let (unit, journal) = created_and(&[GRANT, LOAN, shift(0, 255)]);
        let made = stored(unit.grants(), unit.loans()).expect("in order");
        made.assert_says(&journal);
    }

    #[test]
    fn stored_otherwise() {
        let (unit, _) = created_and(&[GRANT, LOAN]);
        let (mut grants, mut loans) = (unit.grants().to_vec(), unit.loans().to_vec());
        let refused = |grants: &[u8], loans: &[u32]| stored(grants, loans).expect_err("refused");
        assert_eq!(refused(&grants, &loans[1..]), Refusal::WrongLength);
        assert_eq!(refused(&grants[1..], &loans), Refusal::WrongLength);
        assert_eq!(refused(&[], &[]), Refusal::WrongLength);
        for word_0 in [2, 1025, (256 << 16) + 1] {
            loans[0] = word_0;
            assert_eq!(refused(&grants, &loans), Refusal::NotInOrder);
        }
        loans[0] = 1;
        grants[0] &= !1;
        assert_eq!(refused(&grants, &loans), Refusal::NotInOrder);
    }

    #[test]
    fn reset() {
        let (mut unit, _) = created_and(&[GRANT, LOAN, shift(0, 5)]);
        unit.reset();
        unit.assert_says(&Journal::fresh());
    }

    #[test]
    fn fresh_in() {
        let mut place = MaybeUninit::new(created_and(&[GRANT, LOAN, shift(0, 5)]).0);
        Chains::fresh_in(&mut place).assert_says(&Journal::fresh());
    }

    #[test]
    fn cloned() {
        let (unit, journal) = created_and(&[GRANT, LOAN]);
        unit.clone().assert_says(&journal);
        let (mut other, _) = created_and(&[lend(0, 5, 3, 1, 0, 0)]);
        assert!(other != unit);
        other.clone_from(&unit);
        other.assert_says(&journal);
        assert!(other == unit);
    }

    #[cfg(feature = "alloc")]
    #[test]
    fn boxed() {
        Chains::boxed().assert_says(&Journal::fresh());
        let (unit, journal) = created_and(&[GRANT, LOAN]);
        let made = Chains::boxed_from_images(unit.grants(), unit.loans()).expect("in order");
        made.assert_says(&journal);
        let refused = Chains::boxed_from_images(unit.grants(), &unit.loans()[1..]);
        assert_eq!(refused.expect_err("refused"), Refusal::WrongLength);
    }
}

mod tickets {
    use super::*;

    static UNIT: std::sync::Mutex<Tickets> = std::sync::Mutex::new(Tickets::fresh());

    fn by_method(unit: &mut Tickets, command: TicketCommand) -> Result<u32, Refusal> {
        match command {
            TicketCommand::Create { by, on } => unit.create(Item(by), Item(on)).map(|()| 0),
            TicketCommand::Generate { by, on, right } => {
                unit.generate(Item(by), Item(on), Right(right)).map(|number| number.0)
            }
            TicketCommand::Pass { by, to, number } => {
                unit.pass(Item(by), Item(to), TicketNumber(number)).map(|()| 0)
            }
            TicketCommand::Remove { by, number } => {
                unit.remove(Item(by), TicketNumber(number)).map(|()| 0)
            }
            TicketCommand::Delete { by, on } => unit.delete(Item(by), Item(on)).map(|()| 0),
        }
    }

    /// Both answer alike, and the image is the state's after each.
    #[track_caller]
    fn give(unit: &mut Tickets, state: &mut TicketState, commands: &[TicketCommand]) {
        for &command in commands {
            let (number, ticket) = state.give(command);
            let answered = by_method(unit, command);
            assert_eq!(answered, answer(number).map(|()| ticket), "{command:?}");
            assert!(unit.image()[..] == ticket_image(state), "{command:?}");
        }
    }

    /// Items 3, 5, 9 and 12 live, and 3 made 9; 3 issues ticket 5 of right 6 there and passes it to
    /// 12, who passes it to 5.
    const COMMANDS: [TicketCommand; 7] = [
        TicketCommand::Create { by: 0, on: 3 },
        TicketCommand::Create { by: 0, on: 5 },
        TicketCommand::Create { by: 3, on: 9 },
        TicketCommand::Create { by: 0, on: 12 },
        TicketCommand::Generate { by: 3, on: 9, right: 6 },
        TicketCommand::Pass { by: 3, to: 12, number: 5 },
        TicketCommand::Pass { by: 12, to: 5, number: 5 },
    ];

    fn made() -> (Tickets, TicketState) {
        let (mut unit, mut state) = (Tickets::fresh(), TicketState::fresh());
        give(&mut unit, &mut state, &COMMANDS);
        (unit, state)
    }

    /// The cells written out in the crate are those that the engine writes.
    #[test]
    fn fresh() {
        let mut image = [9; 2050];
        assert_eq!(lent::tickets::fresh(&mut image), 0);
        assert!(Tickets::fresh().image() == &image && Tickets::default().image() == &image);
        assert!(UNIT.lock().expect("the unit").image() == &image);
    }

    #[test]
    fn commands() {
        let (mut unit, mut state) = made();
        let refused = [
            (TicketCommand::Create { by: 0, on: 64 }, Refusal::OutOfRange),
            (TicketCommand::Create { by: 7, on: 8 }, Refusal::ByDead),
            (TicketCommand::Create { by: 0, on: 3 }, Refusal::AlreadyLive),
            (TicketCommand::Generate { by: 3, on: 7, right: 1 }, Refusal::NamedDead),
            (TicketCommand::Generate { by: 12, on: 9, right: 1 }, Refusal::NoTicket),
            (TicketCommand::Generate { by: 3, on: 9, right: 8 }, Refusal::OutOfRange),
            (TicketCommand::Pass { by: 3, to: 7, number: 5 }, Refusal::NamedDead),
            (TicketCommand::Pass { by: 0, to: 3, number: 5 }, Refusal::NoTicket),
            (TicketCommand::Remove { by: 12, number: 5 }, Refusal::NoTicket),
            (TicketCommand::Remove { by: 3, number: 6 }, Refusal::NoTicket),
            (TicketCommand::Delete { by: 3, on: 0 }, Refusal::RootItem),
            (TicketCommand::Delete { by: 12, on: 9 }, Refusal::NoTicket),
        ];
        for (command, refusal) in refused {
            assert_eq!(by_method(&mut unit, command), Err(refusal), "{command:?}");
            give(&mut unit, &mut state, &[command]);
        }
        let generate = TicketCommand::Generate { by: 3, on: 9, right: 1 };
        give(&mut unit, &mut state, &[TicketCommand::Remove { by: 3, number: 5 }, generate]);
        give(&mut unit, &mut state, &[TicketCommand::Delete { by: 3, on: 9 }]);
    }

    /// 15 and 16 by their names.
    #[test]
    fn full_and_spent() {
        let (mut unit, _) = made();
        for n in 6..1024 {
            assert_eq!(unit.generate(Item(3), Item(9), Right(n % 8)), Ok(TicketNumber(n)));
        }
        assert_eq!(unit.generate(Item(3), Item(9), Right(1)), Err(Refusal::TicketsFull));
        assert_eq!(unit.create(Item(3), Item(60)), Err(Refusal::TicketsFull));
        assert_eq!(unit.records().live().count(), 1024);
        let mut image = *unit.image();
        image[1] = 4_294_967_295;
        let mut unit = Tickets::from_image(&image).expect("in order");
        assert_eq!(unit.remove(Item(3), TicketNumber(1000)), Ok(()));
        assert_eq!(unit.generate(Item(3), Item(9), Right(1)), Err(Refusal::NumbersSpent));
        assert_eq!(unit.create(Item(3), Item(60)), Err(Refusal::NumbersSpent));
    }

    #[test]
    fn check() {
        let (unit, _) = made();
        let records = unit.records();
        for (who, on, right, due) in [
            (12, 9, 6, Ok(true)),
            (5, 9, 6, Ok(true)),
            (3, 9, 6, Ok(true)),
            (9, 12, 6, Ok(false)),
            (12, 9, 5, Ok(false)),
            (0, 9, 6, Ok(false)),
            (64, 9, 6, Err(Refusal::OutOfRange)),
            (12, 64, 6, Err(Refusal::OutOfRange)),
            (12, 9, 8, Err(Refusal::OutOfRange)),
        ] {
            assert_eq!(unit.check(Item(who), Item(on), Right(right)), due);
            assert_eq!(records.check(Item(who), Item(on), Right(right)), due);
        }
    }

    #[test]
    fn records() {
        let (unit, state) = made();
        let records = unit.records();
        let holders = 1 << 3 | 1 << 5 | 1 << 12;
        let fifth = Ticket { number: 5, item: 9, right: 6, issuer: 3, holders };
        assert_eq!((records.at(5), records.at(6)), (fifth, Ticket::VACANT));
        assert_eq!((records.at(1024), records.at(usize::MAX)), (Ticket::VACANT, Ticket::VACANT));
        assert!(fifth.lives() && !Ticket::VACANT.lives());
        assert_eq!(Ticket::default(), Ticket::VACANT);
        assert!(records.live().map(|ticket| ticket.number).eq(0..6));
        assert!(records.iter().eq(&records) && records.iter().eq(records.as_array()));
        assert_eq!(records.as_array().len(), 1024);
        assert_eq!(state.tickets.len(), 6);
        let told = format!("{:?}", Tickets::fresh().records());
        assert_eq!(told, "{0: Ticket { number: 0, item: 0, right: 0, issuer: 0, holders: 1 }}");
    }

    #[test]
    fn stored() {
        let (unit, state) = made();
        let mut image = unit.image().to_vec();
        assert!(Tickets::from_image(&image).expect("in order") == unit);
        assert!(unit.clone().image()[..] == ticket_image(&state));
        let refused = |image: &[u64]| Tickets::from_image(image).expect_err("refused");
        assert_eq!(refused(&image[1..]), Refusal::WrongLength);
        assert_eq!(refused(&[]), Refusal::WrongLength);
        image.push(0);
        assert_eq!(refused(&image), Refusal::WrongLength);
        image.pop();
        image[1] = 5;
        assert_eq!(refused(&image), Refusal::NotInOrder);
    }
}
