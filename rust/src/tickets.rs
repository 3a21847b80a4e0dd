use core::{fmt, slice};

use crate::{answer, lent, Item, Refusal, Right, TicketNumber, TICKETS_MAX, TICKETS_WORDS};

/// The ticket unit: who holds a ticket of a right on an item may use it.
///
/// Whoever holds a ticket of right 0 on an item issues further tickets there, and takes them back;
/// whoever holds any ticket may pass it on, and holds it still.
///
/// ```
/// use rights::{Item, Refusal, Right, TicketNumber, Tickets};
///
/// let mut unit = Tickets::fresh();
/// for item in [3, 4, 9] {
///     unit.create(Item(0), Item(item))?;
/// }
/// let opens = unit.generate(Item(0), Item(9), Right(1))?;
/// unit.pass(Item(0), Item(3), opens)?;
/// unit.pass(Item(3), Item(4), opens)?;
/// assert!(unit.check(Item(4), Item(9), Right(1))?);
///
/// // Only a ticket of right 0 on 9 takes it back, and then from everyone.
/// assert_eq!(unit.remove(Item(3), opens), Err(Refusal::NoTicket));
/// unit.remove(Item(0), opens)?;
/// assert!(!unit.check(Item(4), Item(9), Right(1))?);
///
/// // No later ticket has its number.
/// assert_eq!(unit.generate(Item(0), Item(9), Right(1))?, TicketNumber(opens.0 + 1));
///
/// let stored = unit.image().to_vec();
/// assert_eq!(Tickets::from_image(&stored)?, unit);
/// assert_eq!(Tickets::from_image(&stored[1..]), Err(Refusal::WrongLength));
/// # Ok::<(), Refusal>(())
/// ```
///
/// The image, 16,400 bytes, lies in the value itself.
#[derive(Clone, Debug, PartialEq, Eq)]
pub struct Tickets {
    image: [u64; TICKETS_WORDS],
}

impl Tickets {
    /// A fresh unit: item 0 lives and holds ticket 0, of right 0 on itself. It can begin a static.
    ///
    /// ```
    /// use rights::{Item, Right, Tickets};
    ///
    /// static FRESH: Tickets = Tickets::fresh();
    ///
    /// assert_eq!(FRESH.check(Item(0), Item(0), Right(0)), Ok(true));
    /// assert_eq!(FRESH.image()[..4], [1, 1, 0, 1]);
    /// ```
    #[must_use]
    pub const fn fresh() -> Self {
        let mut image = [0; TICKETS_WORDS];
        // The live set, the next number, and the holders of the first record.
        image[0] = 1;
        image[1] = 1;
        image[3] = 1;
        Self { image }
    }

    /// The unit of a stored image, if the engine finds it in order.
    pub fn from_image(image: &[u64]) -> Result<Self, Refusal> {
        answer(lent::tickets::inspect(image))?;
        let mut unit = Self::fresh();
        unit.image.copy_from_slice(image);
        Ok(unit)
    }

    /// The image, to be stored.
    #[must_use]
    pub const fn image(&self) -> &[u64; TICKETS_WORDS] {
        &self.image
    }

    /// `on` lives, and `by` holds a new ticket of right 0 on it.
    ///
    /// ```
    /// use rights::{Item, Refusal, Right, Tickets};
    ///
    /// let mut unit = Tickets::fresh();
    /// unit.create(Item(0), Item(9))?;
    /// assert!(unit.check(Item(0), Item(9), Right(0))?);
    /// assert_eq!(unit.create(Item(0), Item(9)), Err(Refusal::AlreadyLive));
    /// # Ok::<(), Refusal>(())
    /// ```
    pub fn create(&mut self, by: Item, on: Item) -> Result<(), Refusal> {
        answer(lent::tickets::create(&mut self.image, by.0, on.0))
    }

    /// A new ticket of the right on the item, held by `by` alone, who needs one of right 0 there.
    ///
    /// ```
    /// use rights::{Item, Refusal, Right, TicketNumber, Tickets};
    ///
    /// let mut unit = Tickets::fresh();
    /// assert_eq!(unit.generate(Item(0), Item(0), Right(2)), Ok(TicketNumber(1)));
    /// assert_eq!(unit.generate(Item(0), Item(0), Right(2)), Ok(TicketNumber(2)));
    /// assert!(unit.check(Item(0), Item(0), Right(2))?);
    ///
    /// unit.create(Item(0), Item(3))?;
    /// let refused = unit.generate(Item(3), Item(0), Right(2));
    /// assert_eq!(refused, Err(Refusal::NoTicket));
    /// # Ok::<(), Refusal>(())
    /// ```
    pub fn generate(&mut self, by: Item, on: Item, right: Right) -> Result<TicketNumber, Refusal> {
        let (number, ticket) = lent::tickets::generate(&mut self.image, by.0, on.0, right.0);
        answer(number).map(|()| TicketNumber(ticket))
    }

    /// `to` holds the ticket too; `by` needs to hold it, and still does.
    ///
    /// ```
    /// use rights::{Item, Refusal, Right, TicketNumber, Tickets};
    ///
    /// let mut unit = Tickets::fresh();
    /// unit.create(Item(0), Item(3))?;
    /// assert_eq!(unit.pass(Item(3), Item(3), TicketNumber(0)), Err(Refusal::NoTicket));
    /// unit.pass(Item(0), Item(3), TicketNumber(0))?;
    /// assert!(unit.check(Item(3), Item(0), Right(0))?);
    /// assert!(unit.check(Item(0), Item(0), Right(0))?);
    /// # Ok::<(), Refusal>(())
    /// ```
    pub fn pass(&mut self, by: Item, to: Item, number: TicketNumber) -> Result<(), Refusal> {
        answer(lent::tickets::pass(&mut self.image, by.0, to.0, number.0))
    }

    /// Takes the ticket from everyone, and it ends; `by` needs one of right 0 on the item that it is
    /// for, and may so end the last of them.
    ///
    /// ```
    /// use rights::{Item, Refusal, Right, TicketNumber, Tickets};
    ///
    /// let mut unit = Tickets::fresh();
    /// unit.create(Item(0), Item(3))?;
    /// // 3 holds no ticket.
    /// assert_eq!(unit.remove(Item(3), TicketNumber(1)), Err(Refusal::NoTicket));
    /// unit.remove(Item(0), TicketNumber(1))?;
    /// // Nobody may edit 3 any more.
    /// assert_eq!(unit.generate(Item(0), Item(3), Right(1)), Err(Refusal::NoTicket));
    /// # Ok::<(), Refusal>(())
    /// ```
    pub fn remove(&mut self, by: Item, number: TicketNumber) -> Result<(), Refusal> {
        answer(lent::tickets::remove(&mut self.image, by.0, number.0))
    }

    /// `on` lives no longer: the tickets for it end, and it holds none; one that it alone held ends.
    ///
    /// ```
    /// use rights::{Item, Refusal, Right, Tickets};
    ///
    /// let mut unit = Tickets::fresh();
    /// unit.create(Item(0), Item(3))?;
    /// let opens = unit.generate(Item(0), Item(0), Right(1))?;
    /// unit.pass(Item(0), Item(3), opens)?;
    /// unit.delete(Item(0), Item(3))?;
    /// // Created again it inherits nothing.
    /// unit.create(Item(0), Item(3))?;
    /// assert!(!unit.check(Item(3), Item(0), Right(1))?);
    /// # Ok::<(), Refusal>(())
    /// ```
    pub fn delete(&mut self, by: Item, on: Item) -> Result<(), Refusal> {
        answer(lent::tickets::delete(&mut self.image, by.0, on.0))
    }

    /// Whether `who` holds a live ticket of the right on the item. Who issued it does not count.
    pub fn check(&self, who: Item, on: Item, right: Right) -> Result<bool, Refusal> {
        let (number, yes) = lent::tickets::check(&self.image, who.0, on.0, right.0);
        answer(number).map(|()| yes != 0)
    }

    /// The records, in their places.
    ///
    /// ```
    /// use rights::{Item, Refusal, Right, Ticket, Tickets};
    ///
    /// let mut unit = Tickets::fresh();
    /// unit.create(Item(0), Item(9))?;
    /// unit.generate(Item(0), Item(9), Right(1))?;
    /// let records = unit.records();
    /// let third = Ticket { number: 2, item: 9, right: 1, issuer: 0, holders: 1 << 0 };
    /// assert_eq!(records.at(2), third);
    /// assert_eq!(records.live().count(), 3);
    /// # Ok::<(), Refusal>(())
    /// ```
    #[must_use]
    pub fn records(&self) -> TicketRecords {
        let mut records = TicketRecords { tickets: [Ticket::VACANT; TICKETS_MAX] };
        // The engine refuses no image in order; were it to, no ticket would live here.
        let _ = lent::tickets::records(&self.image, &mut records.tickets);
        records
    }
}

impl Default for Tickets {
    fn default() -> Self {
        Self::fresh()
    }
}

/// A ticket, `rights_ticket` of include/rights.h: two words of its unit's image.
///
/// ```
/// use rights::{ItemSet, Item, Ticket, Tickets};
///
/// let first = Tickets::fresh().records().at(0);
/// assert_eq!(first, Ticket { number: 0, item: 0, right: 0, issuer: 0, holders: 1 });
/// assert!(ItemSet(first.holders).contains(Item(0)));
/// assert_eq!(size_of::<Ticket>(), 16);
/// ```
#[repr(C)]
#[derive(Clone, Copy, Debug, Default, PartialEq, Eq, Hash)]
pub struct Ticket {
    /// Its number, which no other ticket of the unit has or had.
    pub number: u32,
    /// The item that it is for.
    pub item: u8,
    /// The right on that item.
    pub right: u8,
    /// Who issued it; perhaps dead by now, and perhaps no holder.
    pub issuer: u16,
    /// The set of its holders, bit i for item i: as items, those of `ItemSet(ticket.holders)`.
    pub holders: u64,
}

impl Ticket {
    /// The record of a place without a live ticket: all 0.
    ///
    /// ```
    /// use rights::{Ticket, Tickets, TICKETS_MAX};
    ///
    /// assert_eq!(Tickets::fresh().records().at(1), Ticket::VACANT);
    /// assert_eq!(Tickets::fresh().records().at(TICKETS_MAX), Ticket::VACANT);
    /// ```
    pub const VACANT: Self = Self { number: 0, item: 0, right: 0, issuer: 0, holders: 0 };

    /// Whether it has a holder.
    ///
    /// ```
    /// use rights::{Ticket, Tickets};
    ///
    /// assert!(Tickets::fresh().records().at(0).lives());
    /// assert!(!Ticket::VACANT.lives());
    /// ```
    #[must_use]
    pub const fn lives(&self) -> bool {
        self.holders != 0
    }
}

/// The [`TICKETS_MAX`] records of a ticket unit, as they were when [`Tickets::records`] read them.
///
/// ```
/// use rights::{Item, Refusal, Right, Tickets};
///
/// let mut unit = Tickets::fresh();
/// let records = unit.records();
/// unit.generate(Item(0), Item(0), Right(7))?;
/// assert!(!records.check(Item(0), Item(0), Right(7))?);
/// assert!(unit.records().check(Item(0), Item(0), Right(7))?);
/// assert_eq!(unit.records().iter().filter(|ticket| ticket.right == 7).count(), 1);
/// # Ok::<(), Refusal>(())
/// ```
#[derive(Clone, PartialEq, Eq)]
pub struct TicketRecords {
    tickets: [Ticket; TICKETS_MAX],
}

impl TicketRecords {
    /// The record at a place, from 0 on; [`Ticket::VACANT`] past the last one.
    #[must_use]
    pub fn at(&self, place: usize) -> Ticket {
        lent::tickets::at(&self.tickets, place)
    }

    /// Whether `who` holds a live ticket of the right on the item: what [`Tickets::check`] says of
    /// the unit that these records were read from.
    pub fn check(&self, who: Item, on: Item, right: Right) -> Result<bool, Refusal> {
        let (number, yes) = lent::tickets::check_records(&self.tickets, who.0, on.0, right.0);
        answer(number).map(|()| yes != 0)
    }

    /// Every record, in their places.
    #[must_use]
    pub const fn as_array(&self) -> &[Ticket; TICKETS_MAX] {
        &self.tickets
    }

    /// Every record, in their places.
    pub fn iter(&self) -> slice::Iter<'_, Ticket> {
        self.tickets.iter()
    }

    /// The live tickets, in their places.
    pub fn live(&self) -> impl Iterator<Item = &Ticket> + '_ {
        self.iter().filter(|ticket| ticket.lives())
    }
}

/// The live tickets with their places.
impl fmt::Debug for TicketRecords {
    fn fmt(&self, f: &mut fmt::Formatter<'_>) -> fmt::Result {
        f.debug_map().entries(self.iter().enumerate().filter(|(_, ticket)| ticket.lives())).finish()
    }
}

impl<'a> IntoIterator for &'a TicketRecords {
    type Item = &'a Ticket;
    type IntoIter = slice::Iter<'a, Ticket>;

    fn into_iter(self) -> Self::IntoIter {
        self.iter()
    }
}
