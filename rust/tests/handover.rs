//! The chain unit's type on the handover examples of document 01, E1 to E13, its loans open-ended,
//! and on the stories of document 02's requests K1 to K3 and K5.

use rights::{Chains, Depth, Item, ItemSet, Refusal, Right, Shift};

const ON: Item = Item(9);
const RIGHT: Right = Right(1);
const OPEN_ENDED: Shift = Shift(0);

/// What every handover example starts from.
fn base() -> Chains {
    let mut unit = Chains::fresh();
    for on in [3, 4, 5, 9] {
        assert_eq!(unit.create(Item(0), Item(on)), Ok(()));
    }
    assert_eq!(unit.allow(Item(0), Item(3), ON, RIGHT, Depth(2)), Ok(()));
    assert_eq!(unit.lend(Item(3), Item(4), ON, RIGHT, Depth(1), OPEN_ENDED), Ok(()));
    assert_eq!(unit.lend(Item(4), Item(5), ON, RIGHT, Depth(0), OPEN_ENDED), Ok(()));
    unit
}

/// The depth and the chain of a yes, nothing on no.
fn check(unit: &Chains, who: u32) -> Option<(u32, Vec<u32>)> {
    let answer = unit.check(Item(who), ON, RIGHT).expect("an answer");
    let persons = answer.persons().iter().map(|person| person.0).collect();
    Some((answer.depth().0, persons)).filter(|_| answer.yes())
}

#[test]
fn e1_to_e4() {
    let mut unit = base();
    assert_eq!(check(&unit, 5), Some((0, vec![3, 4, 5])));
    assert_eq!(check(&unit, 4), Some((1, vec![3, 4])));
    assert_eq!(check(&unit, 0), None);
    assert_eq!(unit.recall(Item(3), Item(4), ON, RIGHT, Depth(0), OPEN_ENDED), Ok(()));
    assert_eq!(check(&unit, 4), Some((1, vec![3, 4])));
}

/// E5 as K5 has it: "after the new allow, 4 is no."
#[test]
fn e5_to_e7() {
    let mut e5 = base();
    assert_eq!(e5.withdraw(Item(0), Item(3), ON, RIGHT), Ok(()));
    assert_eq!(check(&e5, 5), None);
    assert_eq!(e5.allow(Item(0), Item(3), ON, RIGHT, Depth(1)), Ok(()));
    assert_eq!(check(&e5, 3), Some((1, vec![3])));
    assert_eq!((check(&e5, 4), check(&e5, 5)), (None, None));
    let mut e6 = base();
    assert_eq!(e6.lend(Item(3), Item(5), ON, RIGHT, Depth(5), OPEN_ENDED), Ok(()));
    assert_eq!(check(&e6, 5), Some((1, vec![3, 5])));
    let mut e7 = base();
    assert_eq!(e7.delete(Item(0), Item(4)), Ok(()));
    assert_eq!(e7.create(Item(0), Item(4)), Ok(()));
    assert_eq!(check(&e7, 4), None);
}

#[test]
fn e8_to_e12() {
    let mut unit = base();
    assert_eq!(unit.create(Item(0), Item(63)), Ok(()));
    assert_eq!(unit.create(Item(0), Item(64)), Err(Refusal::OutOfRange));
    assert_eq!(unit.create(Item(0), Item(3)), Err(Refusal::AlreadyLive));
    assert_eq!(unit.delete(Item(3), Item(0)), Err(Refusal::RootItem));
    assert_eq!(unit.allow(Item(3), Item(4), ON, RIGHT, Depth(0)), Err(Refusal::NoEdit));
    assert_eq!(unit.create(Item(7), Item(3)), Err(Refusal::ByDead));
    assert_eq!(unit.delete(Item(0), Item(7)), Err(Refusal::NamedDead));
    let right_0 = unit.lend(Item(3), Item(4), ON, Right(0), Depth(0), OPEN_ENDED);
    assert_eq!(right_0, Err(Refusal::EditRight));
}

/// E13: two loans stand; 1,022 more are lent, then one too many, then one that stands.
#[test]
fn e13() {
    let mut unit = base();
    let persons = [0, 3, 4, 5, 9];
    let mut lend = |n: usize| {
        let (by, to) = (persons[n % 5], persons[n / 5 % 5]);
        let (right, depth) = (Right(2 + n as u32 / 25 % 6), Depth(n as u32 / 150));
        unit.lend(Item(by), Item(to), ON, right, depth, OPEN_ENDED)
    };
    for n in 0..1022 {
        assert_eq!(lend(n), Ok(()), "loan {n}");
    }
    assert_eq!(lend(1022), Err(Refusal::Full));
    assert_eq!(lend(1021), Ok(()));
    assert_eq!(unit.loans()[0], 1024);
}

/// K1: in shift 3 the right is lent by 4 to 0, for this shift alone, and that is forgotten. 0 has
/// it through 3 and 4 now, and in the next shift no longer. The shift goes back only after a
/// recall.
#[test]
fn loan_for_one_shift() {
    let mut unit = base();
    assert_eq!(unit.shift(Item(0), Shift(3)), Ok(()));
    assert_eq!(unit.lend(Item(4), Item(0), ON, RIGHT, Depth(0), Shift(3)), Ok(()));
    assert_eq!(check(&unit, 0), Some((0, vec![3, 4, 0])));
    assert_eq!(unit.shift(Item(0), Shift(4)), Ok(()));
    assert_eq!(check(&unit, 0), None);
    assert_eq!(check(&unit, 5), Some((0, vec![3, 4, 5])));
    assert_eq!(unit.shift(Item(0), Shift(3)), Err(Refusal::ShiftBack));
    let again = unit.lend(Item(4), Item(0), ON, RIGHT, Depth(0), Shift(3));
    assert_eq!(again, Err(Refusal::LastPast));
    assert_eq!(unit.recall(Item(4), Item(0), ON, RIGHT, Depth(0), Shift(3)), Ok(()));
    assert_eq!(unit.shift(Item(0), Shift(3)), Ok(()));
    assert_eq!(check(&unit, 0), None);
}

/// K2: "A new wing means forty allow lines, and a slip halfway leaves half a team." Of the forty, 20
/// to 59, number 41 was not created: nobody gets the right. When it is, one command gives it to all
/// of them, and to nobody else.
#[test]
fn forty_at_once() {
    let mut unit = base();
    for on in (20..60).filter(|&on| on != 41) {
        assert_eq!(unit.create(Item(0), Item(on)), Ok(()));
    }
    let team = (20..60).map(Item).collect::<Result<ItemSet, Refusal>>().expect("a set");
    assert_eq!(team.len(), 40);
    let open =
        |unit: &Chains| (0..64).filter(|&who| check(unit, who).is_some()).collect::<Vec<_>>();
    assert_eq!(unit.allow_set(Item(0), team, ON, RIGHT, Depth(0)), Err(Refusal::NamedDead));
    assert_eq!(open(&unit), [3, 4, 5]);
    assert_eq!(unit.create(Item(0), Item(41)), Ok(()));
    assert_eq!(unit.allow_set(Item(0), team, ON, RIGHT, Depth(0)), Ok(()));
    assert!(team.iter().all(|member| check(&unit, member.0) == Some((0, vec![member.0]))));
    assert_eq!(open(&unit), [3, 4, 5].into_iter().chain(20..60).collect::<Vec<_>>());
}

/// K3: "Managers want to lower a person's lending depth without closing the drawer." 3 has the right at
/// depth 2, and gets it at 0 too. When depth 2 is dropped 3 still opens the drawer and lends to nobody;
/// the loan stays, and carries again when 3 gets depth 1. Depth 2, dropped once more, is not there.
#[test]
fn lower_depth() {
    let mut unit = base();
    let at = |depth| (Item(0), Item(3), ON, RIGHT, Depth(depth));
    let drop_at = |unit: &mut Chains, depth| {
        let (by, to, on, right, depth) = at(depth);
        unit.drop_grant(by, to, on, right, depth)
    };
    let allow_at = |unit: &mut Chains, depth| {
        let (by, to, on, right, depth) = at(depth);
        unit.allow(by, to, on, right, depth)
    };
    assert_eq!(allow_at(&mut unit, 0), Ok(()));
    assert_eq!(check(&unit, 3), Some((2, vec![3])));
    assert_eq!(drop_at(&mut unit, 2), Ok(()));
    assert_eq!(check(&unit, 3), Some((0, vec![3])));
    assert_eq!((check(&unit, 4), check(&unit, 5)), (None, None));
    assert_eq!(allow_at(&mut unit, 1), Ok(()));
    assert_eq!((check(&unit, 4), check(&unit, 5)), (Some((0, vec![3, 4])), None));
    assert_eq!(drop_at(&mut unit, 2), Ok(()));
    assert_eq!(check(&unit, 3), Some((1, vec![3])));
    assert_eq!(drop_at(&mut unit, 8), Err(Refusal::OutOfRange));
}

/// K5: "Homes now hold that a right given back starts clean." 3 loses the right on 9 and gets it back,
/// depth and all: 4, to whom 3 had lent it, does not have it, and nor has 5. 4's own loan to 5 stood
/// throughout, and carries when 3 lends to 4 anew.
#[test]
fn starts_clean() {
    let mut unit = base();
    assert_eq!(unit.withdraw(Item(0), Item(3), ON, RIGHT), Ok(()));
    assert_eq!(unit.loans()[0], 1);
    assert_eq!(unit.allow(Item(0), Item(3), ON, RIGHT, Depth(2)), Ok(()));
    assert_eq!([3, 4, 5].map(|who| check(&unit, who)), [Some((2, vec![3])), None, None]);
    assert_eq!(unit.lend(Item(3), Item(4), ON, RIGHT, Depth(1), OPEN_ENDED), Ok(()));
    assert_eq!(check(&unit, 5), Some((0, vec![3, 4, 5])));
    assert_eq!(unit.drop_grant(Item(0), Item(3), ON, RIGHT, Depth(2)), Ok(()));
    assert_eq!(unit.loans()[0], 1);
}

/// K8: a loan for shift 3 and one for shift 4 are forgotten. In shift 4 one is past: a sweep, by 5, who may
/// edit nothing, ends it as its recall would, and no answer changes. The shift goes back once both have
/// ended.
#[test]
fn swept_loans() {
    let mut unit = base();
    for last in [3, 4] {
        assert_eq!(unit.lend(Item(4), Item(0), ON, RIGHT, Depth(0), Shift(last)), Ok(()));
    }
    assert_eq!(unit.shift(Item(0), Shift(4)), Ok(()));
    let mut recalled = unit.clone();
    assert_eq!(recalled.recall(Item(4), Item(0), ON, RIGHT, Depth(0), Shift(3)), Ok(()));
    let answers = |unit: &Chains| [0, 3, 4, 5, 9].map(|who| check(unit, who));
    let before = answers(&unit);
    assert_eq!(unit.sweep(Item(7)), Err(Refusal::ByDead));
    assert_eq!(unit.sweep(Item(64)), Err(Refusal::OutOfRange));
    assert_eq!(unit.sweep(Item(5)), Ok(1));
    assert_eq!(unit, recalled);
    assert_eq!(answers(&unit), before);
    assert_eq!(before[0], Some((0, vec![3, 4, 0])));
    assert_eq!(unit.shift(Item(0), Shift(3)), Err(Refusal::ShiftBack));
    assert_eq!(unit.shift(Item(0), Shift(5)), Ok(()));
    assert_eq!(unit.sweep(Item(5)), Ok(1));
    assert_eq!(unit.shift(Item(0), Shift(3)), Ok(()));
}
