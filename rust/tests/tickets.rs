//! The ticket unit on fixed calls, worked out from request K6: what each command does, every number
//! of each at its limits, which of two numbers is given, and what ends with what. What stands in
//! quotation marks is the text of the request.

mod engine;
mod model;
mod ticket_unit;

use model::ticket_image;
use model::tickets::LAST_NUMBER;
use rights::lent::tickets;
use ticket_unit::{create, delete, generate, pass, remove, ticket, TicketUnit};

/// "fresh, item 0 lives, the next is 1 and ticket 0 is 0's for right 0 on item 0": word by word.
#[test]
fn fresh() {
    let unit = TicketUnit::fresh();
    assert_eq!(unit.image[..4], [1, 1, 0, 1]);
    assert!(unit.image[4..].iter().all(|&word| word == 0) && unit.image.len() == 2050);
    unit.assert_holders(0, 0, &[0]);
    (1..8).for_each(|right| unit.assert_holders(0, right, &[]));
    for length in [0, 1, 2049, 2051, 4100] {
        let mut image = vec![5; length];
        assert_eq!(tickets::fresh(&mut image), 1, "{length}");
        assert!(image.iter().all(|&word| word == 5), "{length}");
    }
}

/// The words of one ticket of which every field differs from the others and from 0.
#[test]
fn the_record() {
    let mut unit = TicketUnit::after(&[create(0, 5), create(5, 35), create(0, 63)]);
    assert_eq!(unit.give(0, generate(5, 35, 6)), 4);
    unit.accept(&[pass(5, 63, 4)]);
    assert_eq!(unit.image[0], 1 << 0 | 1 << 5 | 1 << 35 | 1 << 63);
    assert_eq!(unit.image[1], 5);
    let word = 4 + 35 * 4_294_967_296 + 6 * 1_099_511_627_776 + 5 * 281_474_976_710_656;
    assert_eq!(unit.image[10..12], [word, 1 << 5 | 1 << 63]);
    // The creates' tickets: right 0 to the maker.
    assert_eq!(unit.image[2..4], [0, 1]);
    assert_eq!(unit.image[4..6], [1 + 5 * 4_294_967_296, 1]);
    let of_35 = 2 + 35 * 4_294_967_296 + 5 * 281_474_976_710_656;
    assert_eq!(unit.image[6..8], [of_35, 1 << 5]);
    assert_eq!(unit.image[8..10], [3 + 63 * 4_294_967_296, 1]);
    assert!(unit.image[12..].iter().all(|&word| word == 0));
}

/// A ward on tickets: the sister 1 makes drawer 9, gives nurse 2 a ticket, who passes it to relief
/// carer 3; the sister takes it back from everyone, and nurse 2 may pass it no more.
#[test]
fn a_ward() {
    let mut unit = TicketUnit::after(&[create(0, 1), create(0, 2), create(0, 3), create(1, 9)]);
    // 4 is 1's ticket of right 0 on 9, 5 to 7 the new ones.
    assert_eq!(unit.give(0, generate(1, 9, 1)), 5);
    unit.accept(&[pass(1, 2, 5)]);
    unit.assert_holders(9, 1, &[1, 2]);
    unit.accept(&[pass(2, 3, 5)]);
    unit.assert_holders(9, 1, &[1, 2, 3]);
    unit.assert_holders(9, 0, &[1]);
    // Holders of a right 1 ticket neither issue nor remove.
    unit.refuse(17, &[generate(2, 9, 1), remove(2, 5), remove(3, 5), delete(3, 9)]);
    // The house has no ticket on 9 either.
    unit.refuse(17, &[generate(0, 9, 1), remove(0, 5), delete(0, 9), pass(0, 3, 5)]);
    unit.accept(&[remove(1, 5)]);
    unit.assert_holders(9, 1, &[]);
    unit.assert_holders(9, 0, &[1]);
    unit.refuse(17, &[pass(2, 3, 5), pass(1, 2, 5), remove(1, 5)]);
    // The next ticket has the next number, in the place of the removed one.
    assert_eq!(unit.give(0, generate(1, 9, 1)), 6);
    unit.assert_tickets(&[
        (0, ticket(0, 0, 0, 0, &[0])),
        (1, ticket(1, 1, 0, 0, &[0])),
        (2, ticket(2, 2, 0, 0, &[0])),
        (3, ticket(3, 3, 0, 0, &[0])),
        (4, ticket(4, 9, 0, 1, &[1])),
        (5, ticket(6, 9, 1, 1, &[1])),
    ]);
}

/// A ticket of right 0 passed on gives all that the maker may: issue, remove, delete.
#[test]
fn right_0_passed_on() {
    let mut unit = TicketUnit::after(&[create(0, 1), create(0, 2), create(1, 9)]);
    unit.refuse(17, &[generate(2, 9, 3), delete(2, 9)]);
    unit.accept(&[pass(1, 2, 3)]);
    unit.assert_holders(9, 0, &[1, 2]);
    assert_eq!(unit.give(0, generate(2, 9, 3)), 4);
    unit.assert_holders(9, 3, &[2]);
    // 2 takes 1's ticket from everyone, itself among them, and nobody is left who may.
    unit.accept(&[remove(2, 3)]);
    unit.assert_holders(9, 0, &[]);
    unit.assert_holders(9, 3, &[2]);
    unit.refuse(17, &[remove(1, 4), remove(2, 4), generate(1, 9, 0), delete(1, 9), delete(2, 9)]);
    // Its holder may pass ticket 4 still.
    unit.accept(&[pass(2, 1, 4)]);
    unit.assert_holders(9, 3, &[1, 2]);
}

/// "generate (by, on, right) needs a right 0 ticket on the item": one of right 0 may be generated
/// too, and serves when the first has gone.
#[test]
fn right_0_generated() {
    let mut unit = TicketUnit::after(&[create(0, 9)]);
    assert_eq!(unit.give(0, generate(0, 9, 0)), 2);
    unit.accept(&[remove(0, 1)]);
    assert_eq!(unit.give(0, generate(0, 9, 7)), 3);
    unit.accept(&[remove(0, 2)]);
    unit.refuse(17, &[generate(0, 9, 7), remove(0, 3)]);
    // Ticket 0 itself can be removed; then item 0 may do nothing on itself.
    unit.accept(&[remove(0, 0)]);
    unit.assert_holders(0, 0, &[]);
    unit.refuse(17, &[generate(0, 0, 1), remove(0, 0)]);
    unit.accept(&[create(0, 10)]);
    unit.assert_tickets(&[(0, ticket(4, 10, 0, 0, &[0])), (1, ticket(3, 9, 7, 0, &[0]))]);
}

/// "pass .. needs that ticket": not another for the same, nor having issued it, nor right 0.
#[test]
fn pass_needs_that_ticket() {
    let mut unit = TicketUnit::after(&[create(0, 1), create(0, 2), create(0, 3), create(1, 9)]);
    assert_eq!(unit.give(0, generate(1, 9, 1)), 5);
    assert_eq!(unit.give(0, generate(1, 9, 1)), 6);
    unit.accept(&[pass(1, 2, 5), pass(1, 3, 6)]);
    // Each has the right, by another ticket than the one named.
    unit.refuse(17, &[pass(2, 3, 6), pass(3, 2, 5)]);
    // 2 has right 0 on 9 and does not hold 6.
    unit.accept(&[pass(1, 2, 4)]);
    unit.refuse(17, &[pass(2, 3, 6)]);
    // 1 issued 5 and 6; deleted and made again it holds neither.
    unit.accept(&[delete(0, 1), create(0, 1)]);
    unit.refuse(17, &[pass(1, 3, 5), pass(1, 3, 6), generate(1, 9, 1), remove(1, 5)]);
    unit.assert_holders(9, 1, &[2, 3]);
    // To oneself, and to one who holds it: nothing changes.
    let before = unit.image.clone();
    unit.accept(&[pass(2, 2, 5), pass(3, 3, 6)]);
    assert!(unit.image == before);
}

/// "takes the item out of every holder set": as a holder it goes, as an issuer it stays, and a ticket
/// of which it was the one holder ends "as an all-zero record".
#[test]
fn deleted_persons() {
    let mut unit = TicketUnit::after(&[create(0, 1), create(0, 2), create(1, 9), create(0, 8)]);
    assert_eq!(unit.give(0, generate(1, 9, 1)), 5);
    assert_eq!(unit.give(0, generate(1, 9, 2)), 6);
    unit.accept(&[pass(1, 2, 5)]);
    unit.accept(&[delete(0, 1)]);
    // 1's own ticket, 3 and 6 have ended, 5 is 2's, and its issuer is dead.
    unit.assert_tickets(&[
        (0, ticket(0, 0, 0, 0, &[0])),
        (2, ticket(2, 2, 0, 0, &[0])),
        (4, ticket(4, 8, 0, 0, &[0])),
        (5, ticket(5, 9, 1, 1, &[2])),
    ]);
    unit.assert_holders(9, 1, &[2]);
    // Nobody may edit 9, which lives.
    unit.refuse(17, &[generate(0, 9, 1), delete(0, 9), remove(2, 5)]);
    unit.refuse(6, &[create(0, 9)]);
    // 2 passes it on all the same, and the places that fell free are taken from the first on.
    unit.accept(&[pass(2, 8, 5), create(2, 1), create(0, 3)]);
    unit.assert_holders(9, 1, &[2, 8]);
    unit.assert_tickets(&[
        (0, ticket(0, 0, 0, 0, &[0])),
        (1, ticket(7, 1, 0, 2, &[2])),
        (2, ticket(2, 2, 0, 0, &[0])),
        (3, ticket(8, 3, 0, 0, &[0])),
        (4, ticket(4, 8, 0, 0, &[0])),
        (5, ticket(5, 9, 1, 1, &[2, 8])),
    ]);
}

/// "ends the item's tickets", whoever holds them and of whatever right; made again it inherits
/// nothing, and its tickets' numbers never come again.
#[test]
fn deleted_and_made_again() {
    let mut unit = TicketUnit::after(&[create(0, 1), create(0, 2), create(1, 9)]);
    for right in 1..8 {
        assert_eq!(unit.give(0, generate(1, 9, right)), 3 + right);
        unit.accept(&[pass(1, 2, 3 + right)]);
    }
    unit.accept(&[delete(1, 9)]);
    unit.assert_tickets(&[
        (0, ticket(0, 0, 0, 0, &[0])),
        (1, ticket(1, 1, 0, 0, &[0])),
        (2, ticket(2, 2, 0, 0, &[0])),
    ]);
    unit.refuse(17, &[pass(2, 1, 4), remove(1, 4)]);
    unit.refuse(5, &[generate(1, 9, 1), delete(1, 9), pass(0, 9, 0)]);
    unit.refuse(4, &[create(9, 10), generate(9, 0, 0), pass(9, 0, 0), remove(9, 0), delete(9, 0)]);
    unit.accept(&[create(2, 9)]);
    unit.assert_holders(9, 0, &[2]);
    (1..8).for_each(|right| unit.assert_holders(9, right, &[]));
    unit.assert_tickets(&[
        (0, ticket(0, 0, 0, 0, &[0])),
        (1, ticket(1, 1, 0, 0, &[0])),
        (2, ticket(2, 2, 0, 0, &[0])),
        (3, ticket(11, 9, 0, 2, &[2])),
    ]);
}

/// An item deletes itself where it holds a ticket of right 0 on itself; it is a holder of its own
/// tickets, and of others'.
#[test]
fn deleted_by_itself() {
    let mut unit = TicketUnit::after(&[create(0, 1), create(1, 2), pass(0, 1, 1)]);
    assert_eq!(unit.give(0, generate(1, 1, 5)), 3);
    unit.accept(&[pass(1, 2, 3), pass(1, 0, 2), delete(1, 1)]);
    unit.assert_tickets(&[(0, ticket(0, 0, 0, 0, &[0])), (2, ticket(2, 2, 0, 1, &[0]))]);
    unit.refuse(4, &[delete(1, 1), remove(1, 2)]);
}

/// "The check says yes exactly when the person holds": not the issuer who lost it, and of dead items
/// it says no. Only the limits are refused, with 3.
#[test]
fn checks() {
    let mut unit = TicketUnit::after(&[create(0, 1), create(0, 2), create(0, 9)]);
    assert_eq!(unit.give(0, generate(0, 9, 7)), 4);
    unit.accept(&[pass(0, 1, 3), pass(0, 2, 4)]);
    assert_eq!(unit.give(0, generate(1, 9, 7)), 5);
    unit.assert_holders(9, 7, &[0, 1, 2]);
    unit.accept(&[create(0, 63)]);
    unit.accept(&[pass(1, 63, 5), delete(0, 1)]);
    unit.assert_holders(9, 7, &[0, 2, 63]);
    unit.assert_holders(9, 6, &[]);
    unit.assert_holders(8, 7, &[]);
    unit.assert_holders(1, 0, &[]);
    for (who, on, right) in
        [(64, 9, 7), (0, 64, 7), (0, 9, 8), (u32::MAX, 9, 7), (0, 256 + 9, 7), (0, 9, 256 + 7)]
    {
        assert_eq!(tickets::check(&unit.image, who, on, right), (3, 0));
    }
    unit.assert_image("checks");
}

/// 3 for an item above 63 or a right above 7, also where the low bits are a number that would do; the
/// greatest within the limits are accepted. A ticket's number has no limit: it names one or is 17.
#[test]
fn limits() {
    let mut unit = TicketUnit::after(&[create(0, 63), create(63, 62)]);
    assert_eq!(unit.give(0, generate(63, 62, 7)), 3);
    unit.accept(&[pass(63, 0, 3), pass(0, 62, 3)]);
    for beyond in [64, 65, 127, 128, 255, 256, 1 << 16, 1 << 31, u32::MAX, 64 + 63, 256 + 63] {
        unit.refuse(3, &[create(beyond, 5), create(0, beyond)]);
        unit.refuse(3, &[generate(beyond, 0, 0), generate(0, beyond, 0)]);
        unit.refuse(3, &[pass(beyond, 0, 0), pass(0, beyond, 0), remove(beyond, 0)]);
        unit.refuse(3, &[delete(beyond, 63), delete(0, beyond)]);
    }
    for right in [8, 9, 15, 16, 256, 257, 1 << 31, u32::MAX] {
        unit.refuse(3, &[generate(0, 0, right)]);
    }
    for number in [4, 5, 64, 1 << 16, (1 << 16) + 3, 1 << 31, u32::MAX - 1, u32::MAX] {
        unit.refuse(17, &[pass(63, 0, number), remove(63, number)]);
    }
    unit.accept(&[remove(63, 3), delete(63, 62), delete(0, 63)]);
}

/// 1 and 2 come before 3, and 3 before all others, of every call.
#[test]
fn order_of_1_2_and_3() {
    let unit = TicketUnit::full().spent();
    let beyond = [create(64, 0), generate(64, 60, 8), pass(64, 60, 9999), remove(64, 9999)];
    for command in beyond.into_iter().chain([delete(0, 64), create(0, 64), generate(0, 0, 8)]) {
        let mut image = unit.image.clone();
        assert_eq!(engine::give_tickets(&mut image, command), (3, 0), "{command:?}");
        image[0] = 0;
        assert_eq!(engine::give_tickets(&mut image, command), (2, 0), "{command:?}");
        image.pop();
        assert_eq!(engine::give_tickets(&mut image, command), (1, 0), "{command:?}");
        assert!(image[1..] == unit.image[1..2049] && image[0] == 0);
    }
    let mut image = unit.image;
    assert_eq!(tickets::check(&image, 64, 0, 0), (3, 0));
    image[0] = 0;
    assert_eq!(tickets::check(&image, 64, 0, 0), (2, 0));
    assert_eq!(tickets::check(&image[1..], 64, 0, 0), (1, 0));
}

/// "create 3, 4, 6, 15, 16": where several apply, the first.
#[test]
fn create_in_order() {
    let mut unit = TicketUnit::full().spent();
    unit.refuse(4, &[create(60, 1), create(60, 61)]);
    unit.refuse(6, &[create(0, 1), create(0, 0), create(3, 3)]);
    unit.refuse(15, &[create(0, 61), create(3, 60)]);
    // A place falls free: then 16.
    unit.accept(&[remove(0, 5)]);
    unit.refuse(4, &[create(60, 1), create(60, 61)]);
    unit.refuse(6, &[create(0, 1)]);
    unit.refuse(16, &[create(0, 61)]);
    let mut unit = TicketUnit::full();
    unit.refuse(4, &[create(60, 1)]);
    unit.refuse(6, &[create(0, 1)]);
    unit.refuse(15, &[create(0, 61)]);
}

/// "generate (by, on, right) 3, 4, 5, 17, 15, 16".
#[test]
fn generate_in_order() {
    let mut unit = TicketUnit::full().spent();
    unit.refuse(4, &[generate(60, 61, 1), generate(60, 0, 1)]);
    unit.refuse(5, &[generate(0, 61, 1), generate(3, 61, 1)]);
    unit.refuse(17, &[generate(3, 0, 1), generate(0, 3, 1), generate(3, 3, 0)]);
    unit.refuse(15, &[generate(0, 0, 1), generate(1, 3, 7)]);
    unit.accept(&[remove(0, 1023)]);
    unit.refuse(4, &[generate(60, 61, 1)]);
    unit.refuse(5, &[generate(0, 61, 1)]);
    unit.refuse(17, &[generate(3, 0, 1)]);
    unit.refuse(16, &[generate(0, 0, 1)]);
    let mut unit = TicketUnit::full();
    unit.refuse(17, &[generate(3, 0, 1)]);
    unit.refuse(15, &[generate(0, 0, 1)]);
}

/// "pass (by, to, number) 3, 4, 5, 17", "remove (by, number) 3, 4, 17", "delete 3, 4, 5, 7, 17";
/// neither a full table nor a spent number refuses them.
#[test]
fn others_in_order() {
    let mut unit = TicketUnit::full().spent();
    unit.refuse(4, &[pass(60, 61, 9999), pass(60, 1, 0), remove(60, 9999), remove(60, 0)]);
    unit.refuse(4, &[delete(60, 0), delete(60, 61), delete(60, 1)]);
    unit.refuse(5, &[pass(0, 61, 9999), pass(0, 61, 0), pass(3, 61, 0), delete(0, 61)]);
    unit.refuse(17, &[pass(0, 1, 9999), pass(3, 1, 0), remove(0, 9999), remove(3, 0)]);
    unit.refuse(7, &[delete(0, 0), delete(3, 0)]);
    unit.refuse(17, &[delete(0, 3), delete(3, 3), delete(3, 1)]);
    unit.accept(&[pass(0, 1, 1022), pass(0, 1, 1023), remove(0, 1022), delete(1, 3), delete(0, 2)]);
}

/// "Up to 1,024 live tickets": 1,023 and then the last place; a place that falls free anywhere is the
/// one that the next ticket takes, the first of several.
#[test]
fn full() {
    let mut unit = TicketUnit::full();
    unit.refuse(15, &[generate(0, 0, 1), create(0, 60)]);
    for (number, place) in [(1023, 1023), (4, 4), (500, 500)] {
        unit.accept(&[remove(0, number)]);
        let next = unit.state.next;
        assert_eq!(unit.give(0, generate(0, 0, 1)), next);
        assert_eq!(unit.state.tickets[&place].number, next);
        unit.refuse(15, &[generate(0, 0, 1)]);
    }
    unit.accept(&[remove(0, 1000), remove(0, 10), remove(0, 700)]);
    for place in [10, 700, 1000] {
        let next = unit.state.next;
        assert_eq!(unit.give(0, generate(1, 3, 2)), next);
        assert_eq!(unit.state.tickets[&place].number, next);
    }
    unit.refuse(15, &[generate(1, 3, 2)]);
    // A delete makes room at many places at once.
    unit.accept(&[delete(0, 2), create(0, 2)]);
    assert_eq!(unit.state.tickets[&2].item, 2);
}

/// "16 when the next number is 4294967295": 4294967294 is the last number, and given.
#[test]
fn spent() {
    let mut unit = TicketUnit::after(&[create(0, 1)]).with_next(LAST_NUMBER - 3);
    assert_eq!(unit.give(0, generate(0, 1, 1)), 4_294_967_292);
    assert_eq!(unit.give(0, generate(0, 1, 2)), 4_294_967_293);
    unit.accept(&[create(0, 2)]);
    assert_eq!(unit.state.next, LAST_NUMBER);
    unit.refuse(16, &[generate(0, 1, 3), create(0, 3)]);
    unit.accept(&[pass(0, 2, 4_294_967_294), pass(0, 2, 4_294_967_292), remove(0, 4_294_967_293)]);
    unit.refuse(17, &[pass(0, 2, 4_294_967_295), remove(0, 4_294_967_295)]);
    // Numbers are never used again, though few are left of those that live.
    unit.accept(&[remove(0, 4_294_967_292), remove(0, 1), delete(2, 2)]);
    unit.refuse(16, &[create(0, 2), create(0, 3)]);
    let mut unit = TicketUnit::fresh().with_next(LAST_NUMBER - 1);
    unit.accept(&[create(0, 1)]);
    unit.refuse(16, &[create(0, 2)]);
}

/// Numbers of which the low 16 bits are the same are different ones.
#[test]
fn numbers_that_look_alike() {
    let mut unit = TicketUnit::after(&[create(0, 1), create(0, 2)]);
    let mut given = vec![];
    for high in 1..=40 {
        unit = unit.with_next(high << 16);
        given.push(unit.give(0, generate(0, 1, high % 8)));
    }
    assert!(given.iter().all(|number| number % 65_536 == 0));
    for &number in &given {
        unit.accept(&[pass(0, 2, number), pass(2, 1, number)]);
    }
    for &number in given.iter().rev().step_by(3) {
        unit.accept(&[remove(0, number)]);
        unit.refuse(17, &[pass(2, 1, number), remove(0, number), pass(0, 1, number + 1)]);
    }
}

/// Every item lives, holds one ticket and issued it; then each goes.
#[test]
fn every_item() {
    let mut unit = TicketUnit::fresh();
    (1..64).for_each(|on| unit.accept(&[create(on - 1, on), pass(on - 1, on, on)]));
    for on in 1..64 {
        assert_eq!(unit.give(0, generate(on, on, on % 8)), 63 + on);
    }
    assert_eq!(unit.image[0], u64::MAX);
    unit.refuse(6, &[create(0, 63)]);
    (1..64).for_each(|to| unit.accept(&[pass(0, to, 0)]));
    unit.assert_holders(0, 0, &(0..64).collect::<Vec<u32>>());
    assert_eq!(unit.image[3], u64::MAX);
    for on in (1..64).rev() {
        unit.accept(&[delete(on, on)]);
    }
    let mut left = model::TicketState::fresh();
    left.next = 127;
    assert!(unit.image == ticket_image(&left));
}
