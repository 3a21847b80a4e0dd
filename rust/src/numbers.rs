/// An item number: a badge or a drawer. The engine refuses one above [`ITEM_MAX`](crate::ITEM_MAX).
///
/// ```
/// use rights::{Item, Lists, Refusal};
///
/// let mut lists = Lists::fresh();
/// assert_eq!(lists.create(Item(0), Item(rights::ITEM_MAX)), Ok(()));
/// assert_eq!(lists.create(Item(0), Item(64)), Err(Refusal::OutOfRange));
/// ```
#[derive(Clone, Copy, Debug, PartialEq, Eq, PartialOrd, Ord, Hash)]
pub struct Item(pub u32);

/// A right number; right 0 is edit. The engine refuses one above [`RIGHT_MAX`](crate::RIGHT_MAX).
///
/// ```
/// use rights::{Item, Lists, Refusal, Right};
///
/// let lists = Lists::fresh();
/// assert_eq!(lists.check(Item(0), Item(0), Right(0)), Ok(true));
/// assert_eq!(lists.check(Item(0), Item(0), Right(rights::RIGHT_MAX)), Ok(false));
/// assert_eq!(lists.check(Item(0), Item(0), Right(8)), Err(Refusal::OutOfRange));
/// ```
#[derive(Clone, Copy, Debug, PartialEq, Eq, PartialOrd, Ord, Hash)]
pub struct Right(pub u32);

/// A depth: how many times the right may be lent on. The engine refuses one above
/// [`DEPTH_MAX`](crate::DEPTH_MAX).
///
/// ```
/// use rights::{Chains, Depth, Item, Refusal, Right};
///
/// let mut unit = Chains::fresh();
/// unit.allow(Item(0), Item(0), Item(0), Right(1), Depth(rights::DEPTH_MAX))?;
/// assert_eq!(unit.check(Item(0), Item(0), Right(1))?.depth(), Depth(7));
/// let beyond = unit.allow(Item(0), Item(0), Item(0), Right(1), Depth(8));
/// assert_eq!(beyond, Err(Refusal::OutOfRange));
/// # Ok::<(), Refusal>(())
/// ```
#[derive(Clone, Copy, Debug, PartialEq, Eq, PartialOrd, Ord, Hash)]
pub struct Depth(pub u32);

/// A shift: of a unit the present one, of a loan its last, where 0 is a loan that is open-ended.
/// The engine refuses one above [`SHIFT_MAX`](crate::SHIFT_MAX).
///
/// ```
/// use rights::{Chains, Item, Refusal, Shift};
///
/// let mut unit = Chains::fresh();
/// assert_eq!(unit.shift(Item(0), Shift(rights::SHIFT_MAX)), Ok(()));
/// assert_eq!(unit.shift(Item(0), Shift(256)), Err(Refusal::OutOfRange));
/// ```
#[derive(Clone, Copy, Debug, PartialEq, Eq, PartialOrd, Ord, Hash)]
pub struct Shift(pub u32);

/// The number of a ticket. [`Tickets::generate`](crate::Tickets::generate) gives it; a number that
/// names no live ticket is refused.
///
/// ```
/// use rights::{Item, Refusal, Right, TicketNumber, Tickets};
///
/// let mut unit = Tickets::fresh();
/// assert_eq!(unit.generate(Item(0), Item(0), Right(1)), Ok(TicketNumber(1)));
/// assert_eq!(unit.remove(Item(0), TicketNumber(1)), Ok(()));
/// assert_eq!(unit.remove(Item(0), TicketNumber(1)), Err(Refusal::NoTicket));
/// ```
#[derive(Clone, Copy, Debug, PartialEq, Eq, PartialOrd, Ord, Hash)]
pub struct TicketNumber(pub u32);
