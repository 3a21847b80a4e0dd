use core::mem::MaybeUninit;

use crate::{
    answer, lent, Depth, Item, ItemSet, Refusal, Right, Shift, CHAIN_PERSONS, GRANTS_BYTES,
    LOANS_WORDS, NO_PERSON,
};

/// The chain unit: grants and loans with depths, and the check that follows the loans that carry.
///
/// ```
/// use rights::{Chains, Depth, Item, Refusal, Right, Shift};
///
/// let mut unit = Chains::fresh();
/// for item in [3, 4, 9] {
///     unit.create(Item(0), Item(item))?;
/// }
/// unit.allow(Item(0), Item(3), Item(9), Right(1), Depth(1))?;
/// unit.lend(Item(3), Item(4), Item(9), Right(1), Depth(0), Shift(0))?;
/// let answer = unit.check(Item(4), Item(9), Right(1))?;
/// assert!(answer.yes());
/// assert_eq!((answer.depth(), answer.persons()), (Depth(0), &[Item(3), Item(4)][..]));
///
/// unit.withdraw(Item(0), Item(3), Item(9), Right(1))?;
/// assert!(!unit.check(Item(4), Item(9), Right(1))?.yes());
/// # Ok::<(), Refusal>(())
/// ```
///
/// The images, 36,876 bytes, lie in the value itself. A static holds a unit without a heap and
/// without that much on the stack; there [`reset`](Chains::reset), [`load`](Chains::load) and
/// `clone_from` change it in place:
///
/// ```
/// use std::sync::Mutex;
///
/// use rights::{Chains, Item, Refusal};
///
/// static UNIT: Mutex<Chains> = Mutex::new(Chains::fresh());
///
/// let mut unit = UNIT.lock().unwrap();
/// unit.create(Item(0), Item(3))?;
/// let stored = (unit.grants().to_vec(), unit.loans().to_vec());
/// unit.reset();
/// assert_eq!(unit.create(Item(0), Item(3)), Ok(()));
/// unit.load(&stored.0, &stored.1)?;
/// assert_eq!(unit.create(Item(0), Item(3)), Err(Refusal::AlreadyLive));
/// # Ok::<(), Refusal>(())
/// ```
///
/// In memory that is not initialised yet, which as a static takes no room in the program's file,
/// [`fresh_in`](Chains::fresh_in) and [`from_images_in`](Chains::from_images_in) make one. With the
/// feature `alloc`, `boxed` and `boxed_from_images` make one on the heap.
#[derive(Debug, PartialEq, Eq)]
pub struct Chains {
    grants: [u8; GRANTS_BYTES],
    loans: [u32; LOANS_WORDS],
}

/// Making a unit.
impl Chains {
    /// A fresh unit: item 0 lives and may edit itself; the shift is 0 and no loan stands. It can
    /// begin a static.
    #[must_use]
    pub const fn fresh() -> Self {
        let mut unit = Self { grants: [0; GRANTS_BYTES], loans: [0; LOANS_WORDS] };
        unit.set_root();
        unit
    }

    /// The unit of two stored images, if the engine finds them in order.
    pub fn from_images(grants: &[u8], loans: &[u32]) -> Result<Self, Refusal> {
        let mut unit = Self::fresh();
        unit.load(grants, loans)?;
        Ok(unit)
    }

    /// Makes a fresh unit in place.
    ///
    /// ```
    /// use std::mem::MaybeUninit;
    ///
    /// use rights::Chains;
    ///
    /// let mut place = MaybeUninit::uninit();
    /// assert_eq!(*Chains::fresh_in(&mut place), Chains::fresh());
    /// ```
    pub fn fresh_in(place: &mut MaybeUninit<Self>) -> &mut Self {
        let unit = zeroed(place);
        unit.set_root();
        unit
    }

    /// Makes the unit of two stored images in place, if the engine finds them in order.
    ///
    /// ```
    /// use std::mem::MaybeUninit;
    ///
    /// use rights::{Chains, Refusal};
    ///
    /// let stored = Chains::fresh();
    /// let mut place = MaybeUninit::uninit();
    /// let unit = Chains::from_images_in(&mut place, stored.grants(), stored.loans())?;
    /// assert_eq!(*unit, stored);
    /// # Ok::<(), Refusal>(())
    /// ```
    pub fn from_images_in<'a>(
        place: &'a mut MaybeUninit<Self>,
        grants: &[u8],
        loans: &[u32],
    ) -> Result<&'a mut Self, Refusal> {
        let unit = zeroed(place);
        unit.load(grants, loans)?;
        Ok(unit)
    }

    /// Makes the unit fresh again.
    pub fn reset(&mut self) {
        self.grants.fill(0);
        self.loans.fill(0);
        self.set_root();
    }

    /// Puts two stored images in the place of the unit's, if the engine finds them in order.
    pub fn load(&mut self, grants: &[u8], loans: &[u32]) -> Result<(), Refusal> {
        answer(lent::chains::inspect(grants, loans))?;
        self.grants.copy_from_slice(grants);
        self.loans.copy_from_slice(loans);
        Ok(())
    }

    /// Item 0 lives and may edit itself, where all else is 0.
    const fn set_root(&mut self) {
        self.grants[0] = 1;
        self.grants[8] = 1;
    }
}

/// Zeros in place; no unit that a call would accept, as item 0 does not live.
#[allow(unsafe_code)]
fn zeroed(place: &mut MaybeUninit<Chains>) -> &mut Chains {
    // SAFETY: the pointer is that of a whole place, and zeros are numbers of every element.
    unsafe {
        place.as_mut_ptr().write_bytes(0, 1);
        place.assume_init_mut()
    }
}

/// Units on the heap, with the feature `alloc`.
#[cfg(feature = "alloc")]
mod boxed {
    use alloc::boxed::Box;

    use super::{zeroed, Chains};
    use crate::Refusal;

    impl Chains {
        /// A fresh unit, made on the heap.
        ///
        /// ```
        /// assert_eq!(*rights::Chains::boxed(), rights::Chains::fresh());
        /// ```
        #[must_use]
        pub fn boxed() -> Box<Self> {
            let mut unit = zeroed_box();
            unit.set_root();
            unit
        }

        /// The unit of two stored images, made on the heap, if the engine finds them in order.
        ///
        /// ```
        /// use rights::{Chains, Refusal};
        ///
        /// let stored = Chains::boxed();
        /// assert_eq!(Chains::boxed_from_images(stored.grants(), stored.loans())?, stored);
        /// # Ok::<(), Refusal>(())
        /// ```
        pub fn boxed_from_images(grants: &[u8], loans: &[u32]) -> Result<Box<Self>, Refusal> {
            let mut unit = zeroed_box();
            unit.load(grants, loans)?;
            Ok(unit)
        }
    }

    #[allow(unsafe_code)]
    fn zeroed_box() -> Box<Chains> {
        let mut place = Box::new_uninit();
        zeroed(&mut place);
        // SAFETY: the place was just initialised.
        unsafe { place.assume_init() }
    }
}

/// The images, to be stored.
impl Chains {
    /// The image of the grants.
    #[must_use]
    pub const fn grants(&self) -> &[u8; GRANTS_BYTES] {
        &self.grants
    }

    /// The image of the loans.
    #[must_use]
    pub const fn loans(&self) -> &[u32; LOANS_WORDS] {
        &self.loans
    }
}

/// The commands and the check.
impl Chains {
    /// `on` lives, and `by` may edit it.
    pub fn create(&mut self, by: Item, on: Item) -> Result<(), Refusal> {
        answer(lent::chains::create(&mut self.grants, &mut self.loans, by.0, on.0))
    }

    /// `on` lives no longer, and every grant and loan that names it ends.
    pub fn delete(&mut self, by: Item, on: Item) -> Result<(), Refusal> {
        answer(lent::chains::delete(&mut self.grants, &mut self.loans, by.0, on.0))
    }

    /// Grants the right on the item to `to` at the depth.
    pub fn allow(
        &mut self,
        by: Item,
        to: Item,
        on: Item,
        right: Right,
        depth: Depth,
    ) -> Result<(), Refusal> {
        let (grants, loans) = (&mut self.grants, &mut self.loans);
        answer(lent::chains::allow(grants, loans, by.0, to.0, on.0, right.0, depth.0))
    }

    /// Grants the right on the item at the depth to every member of the set: what
    /// [`allow`](Self::allow) does for each of them, in any order, or nothing where any of them
    /// would be refused. The empty set is refused with [`Refusal::EmptySet`].
    ///
    /// ```
    /// use rights::{Chains, Depth, Item, ItemSet, Refusal, Right};
    ///
    /// let mut unit = Chains::fresh();
    /// for item in [3, 4, 9] {
    ///     unit.create(Item(0), Item(item))?;
    /// }
    /// let mut set = ItemSet(1 << 3 | 1 << 4 | 1 << 5);
    /// let refused = unit.allow_set(Item(0), set, Item(9), Right(1), Depth(2));
    /// assert_eq!(refused, Err(Refusal::NamedDead));
    /// assert!(!unit.check(Item(3), Item(9), Right(1))?.yes());
    ///
    /// set.remove(Item(5));
    /// unit.allow_set(Item(0), set, Item(9), Right(1), Depth(2))?;
    /// for member in set {
    ///     assert_eq!(unit.check(member, Item(9), Right(1))?.depth(), Depth(2));
    /// }
    /// let nobody = unit.allow_set(Item(0), ItemSet::EMPTY, Item(9), Right(1), Depth(2));
    /// assert_eq!(nobody, Err(Refusal::EmptySet));
    /// # Ok::<(), Refusal>(())
    /// ```
    pub fn allow_set(
        &mut self,
        by: Item,
        set: ItemSet,
        on: Item,
        right: Right,
        depth: Depth,
    ) -> Result<(), Refusal> {
        let (grants, loans) = (&mut self.grants, &mut self.loans);
        answer(lent::chains::allow_set(grants, loans, by.0, set.0, on.0, right.0, depth.0))
    }

    /// Ends the grants of the right on the item to `to`, at every depth, and where one stood the
    /// loans of that right on that item that `to` made, past ones too. Loans by others stay, those
    /// further down among them. Where `to` has no grant there, nothing ends.
    ///
    /// It is [`drop_grant`](Self::drop_grant) for each of the eight depths, judged once before the
    /// first: `by` may end all of its own edit grants with it.
    ///
    /// A right given back starts clean:
    ///
    /// ```
    /// use rights::{Chains, Depth, Item, Refusal, Right, Shift};
    ///
    /// let mut unit = Chains::fresh();
    /// for item in [3, 4, 5, 9] {
    ///     unit.create(Item(0), Item(item))?;
    /// }
    /// unit.allow(Item(0), Item(3), Item(9), Right(1), Depth(2))?;
    /// unit.lend(Item(3), Item(4), Item(9), Right(1), Depth(1), Shift(0))?;
    /// unit.lend(Item(4), Item(5), Item(9), Right(1), Depth(0), Shift(0))?;
    /// assert!(unit.check(Item(5), Item(9), Right(1))?.yes());
    ///
    /// unit.withdraw(Item(0), Item(3), Item(9), Right(1))?;
    /// unit.allow(Item(0), Item(3), Item(9), Right(1), Depth(2))?;
    /// assert!(unit.check(Item(3), Item(9), Right(1))?.yes());
    /// assert!(!unit.check(Item(4), Item(9), Right(1))?.yes());
    ///
    /// // 4's own loan to 5 stood throughout.
    /// unit.lend(Item(3), Item(4), Item(9), Right(1), Depth(1), Shift(0))?;
    /// assert!(unit.check(Item(5), Item(9), Right(1))?.yes());
    /// # Ok::<(), Refusal>(())
    /// ```
    pub fn withdraw(&mut self, by: Item, to: Item, on: Item, right: Right) -> Result<(), Refusal> {
        let (grants, loans) = (&mut self.grants, &mut self.loans);
        answer(lent::chains::withdraw(grants, loans, by.0, to.0, on.0, right.0))
    }

    /// Ends just that grant of `to`, if it stands: the command `drop`. Grants at other depths stay,
    /// and while one does so do loans; with the last of them end the loans of that right on that
    /// item that `to` made, as by [`withdraw`](Self::withdraw).
    ///
    /// A manager lowers the depth at which a person may lend, and the drawer stays open:
    ///
    /// ```
    /// use rights::{Chains, Depth, Item, Refusal, Right, Shift};
    ///
    /// let mut unit = Chains::fresh();
    /// for item in [3, 4, 9] {
    ///     unit.create(Item(0), Item(item))?;
    /// }
    /// for depth in [0, 3, 7] {
    ///     unit.allow(Item(0), Item(3), Item(9), Right(1), Depth(depth))?;
    /// }
    /// unit.lend(Item(3), Item(4), Item(9), Right(1), Depth(7), Shift(0))?;
    /// assert_eq!(unit.check(Item(3), Item(9), Right(1))?.depth(), Depth(7));
    /// assert_eq!(unit.check(Item(4), Item(9), Right(1))?.depth(), Depth(6));
    ///
    /// unit.drop_grant(Item(0), Item(3), Item(9), Right(1), Depth(7))?;
    /// assert_eq!(unit.check(Item(3), Item(9), Right(1))?.depth(), Depth(3));
    /// assert_eq!(unit.check(Item(4), Item(9), Right(1))?.depth(), Depth(2));
    ///
    /// unit.drop_grant(Item(0), Item(3), Item(9), Right(1), Depth(3))?;
    /// assert!(unit.check(Item(3), Item(9), Right(1))?.yes());
    /// assert!(!unit.check(Item(4), Item(9), Right(1))?.yes());
    /// # Ok::<(), Refusal>(())
    /// ```
    pub fn drop_grant(
        &mut self,
        by: Item,
        to: Item,
        on: Item,
        right: Right,
        depth: Depth,
    ) -> Result<(), Refusal> {
        let (grants, loans) = (&mut self.grants, &mut self.loans);
        answer(lent::chains::drop(grants, loans, by.0, to.0, on.0, right.0, depth.0))
    }

    /// Lends the right on the item from `by` to `to` at the depth, also where `by` holds none yet.
    /// The loan carries up to and in its `last` shift; with `Shift(0)` it is open-ended. The same
    /// loan with another `last` is another loan. It stands until it is recalled, an item that it
    /// names is deleted, the last grant that `by` has there is withdrawn or dropped, or it is past
    /// and [swept](Self::sweep).
    pub fn lend(
        &mut self,
        by: Item,
        to: Item,
        on: Item,
        right: Right,
        depth: Depth,
        last: Shift,
    ) -> Result<(), Refusal> {
        let (grants, loans) = (&mut self.grants, &mut self.loans);
        answer(lent::chains::lend(grants, loans, by.0, to.0, on.0, right.0, depth.0, last.0))
    }

    /// Ends just that loan of `by`, if it stands, past its `last` shift or not.
    pub fn recall(
        &mut self,
        by: Item,
        to: Item,
        on: Item,
        right: Right,
        depth: Depth,
        last: Shift,
    ) -> Result<(), Refusal> {
        let (grants, loans) = (&mut self.grants, &mut self.loans);
        answer(lent::chains::recall(grants, loans, by.0, to.0, on.0, right.0, depth.0, last.0))
    }

    /// Sets the present shift, where `by` may edit item 0. A loan that is past its last shift
    /// stands and counts as any other does until it is [swept](Self::sweep), but no chain uses it.
    /// The shift may start again lower once no loan with a last shift stands.
    ///
    /// ```
    /// use rights::{Chains, Depth, Item, Refusal, Right, Shift};
    ///
    /// let mut unit = Chains::fresh();
    /// unit.create(Item(0), Item(4))?;
    /// unit.allow(Item(0), Item(0), Item(0), Right(1), Depth(1))?;
    /// unit.shift(Item(0), Shift(6))?;
    /// unit.lend(Item(0), Item(4), Item(0), Right(1), Depth(0), Shift(6))?;
    /// assert!(unit.check(Item(4), Item(0), Right(1))?.yes());
    ///
    /// unit.shift(Item(0), Shift(7))?;
    /// assert!(!unit.check(Item(4), Item(0), Right(1))?.yes());
    /// assert_eq!(unit.shift(Item(0), Shift(1)), Err(Refusal::ShiftBack));
    /// unit.recall(Item(0), Item(4), Item(0), Right(1), Depth(0), Shift(6))?;
    /// assert_eq!(unit.shift(Item(0), Shift(1)), Ok(()));
    /// # Ok::<(), Refusal>(())
    /// ```
    pub fn shift(&mut self, by: Item, now: Shift) -> Result<(), Refusal> {
        answer(lent::chains::shift(&mut self.grants, &mut self.loans, by.0, now.0))
    }

    /// Ends every loan that is past its last shift: how many there were, which may be none. Any
    /// living item may sweep. Loans in their last shift, with a later one or open-ended stay, and no
    /// check changes its yes or no, its depth or its number of persons, now or at a later shift.
    ///
    /// A table full of past shifts has room again, and the shift may go back:
    ///
    /// ```
    /// use rights::{Chains, Depth, Item, Refusal, Right, Shift};
    ///
    /// let mut unit = Chains::fresh();
    /// let (house, relief) = (Item(0), Item(4));
    /// unit.create(house, relief)?;
    /// // Each shift's loans of right 1 on item 4, one at each depth.
    /// for n in 0..rights::LOANS_MAX {
    ///     let last = Shift(1 + n / 8);
    ///     unit.lend(house, relief, relief, Right(1), Depth(n % 8), last)?;
    /// }
    /// unit.shift(house, Shift(129))?;
    /// let lend_tonight = |unit: &mut Chains| {
    ///     unit.lend(house, relief, relief, Right(1), Depth(0), Shift(129))
    /// };
    /// assert_eq!(lend_tonight(&mut unit), Err(Refusal::Full));
    /// assert_eq!(unit.shift(house, Shift(1)), Err(Refusal::ShiftBack));
    ///
    /// assert_eq!(unit.sweep(relief), Ok(1_024));
    /// assert_eq!(unit.sweep(relief), Ok(0));
    /// assert_eq!(unit.clone().shift(house, Shift(1)), Ok(()));
    /// assert_eq!(lend_tonight(&mut unit), Ok(()));
    /// assert_eq!(unit.sweep(Item(5)), Err(Refusal::ByDead));
    /// # Ok::<(), Refusal>(())
    /// ```
    pub fn sweep(&mut self, by: Item) -> Result<u32, Refusal> {
        let (number, swept) = lent::chains::sweep(&mut self.grants, &mut self.loans, by.0);
        answer(number)?;
        Ok(swept)
    }

    /// Whether a chain of grants and carrying loans gives `who` the right on the item, with the
    /// greatest depth of any and, among the chains with that depth, the fewest persons.
    ///
    /// ```
    /// use rights::{Chains, Depth, Item, Refusal, Right, Shift};
    ///
    /// let mut unit = Chains::fresh();
    /// let (house, nurse, relief, student, drawer) = (Item(0), Item(3), Item(4), Item(5), Item(9));
    /// for item in [nurse, relief, student, drawer] {
    ///     unit.create(house, item)?;
    /// }
    /// let refill = Right(1);
    /// unit.allow(house, nurse, drawer, refill, Depth(2))?;
    /// unit.lend(nurse, relief, drawer, refill, Depth(1), Shift(0))?;
    /// unit.lend(relief, student, drawer, refill, Depth(0), Shift(0))?;
    /// let far = unit.check(student, drawer, refill)?;
    /// assert_eq!((far.depth(), far.persons()), (Depth(0), &[nurse, relief, student][..]));
    ///
    /// // A direct loan that ends with the same depth: fewer hands.
    /// unit.lend(nurse, student, drawer, refill, Depth(0), Shift(0))?;
    /// let near = unit.check(student, drawer, refill)?;
    /// assert_eq!((near.depth(), near.persons()), (Depth(0), &[nurse, student][..]));
    /// # Ok::<(), Refusal>(())
    /// ```
    pub fn check(&self, who: Item, on: Item, right: Right) -> Result<CheckAnswer, Refusal> {
        let mut chain = [NO_PERSON as u8; CHAIN_PERSONS];
        let (grants, loans) = (&self.grants, &self.loans);
        let checked = lent::chains::check(grants, loans, who.0, on.0, right.0, &mut chain);
        answer(checked.number)?;
        let chain = chain.map(|person| Item(person.into()));
        Ok(CheckAnswer { depth: Depth(checked.depth), persons: checked.persons, chain })
    }
}

/// `clone_from` copies in place: the way to run a command on a copy first, where the unit itself
/// must change as a whole or not at all.
impl Clone for Chains {
    fn clone(&self) -> Self {
        Self { grants: self.grants, loans: self.loans }
    }

    fn clone_from(&mut self, source: &Self) {
        self.grants.copy_from_slice(&source.grants);
        self.loans.copy_from_slice(&source.loans);
    }
}

impl Default for Chains {
    fn default() -> Self {
        Self::fresh()
    }
}

/// The answer of a chain unit's check.
///
/// ```
/// use rights::{Chains, Depth, Item, Refusal, Right};
///
/// let unit = Chains::fresh();
/// let yes = unit.check(Item(0), Item(0), Right(0))?;
/// assert!(yes.yes());
/// assert_eq!((yes.depth(), yes.persons()), (Depth(0), &[Item(0)][..]));
///
/// let no = unit.check(Item(0), Item(0), Right(1))?;
/// assert!(!no.yes());
/// assert_eq!((no.depth(), no.persons()), (Depth(0), &[][..]));
/// # Ok::<(), Refusal>(())
/// ```
#[derive(Clone, Copy, Debug, PartialEq, Eq)]
#[must_use]
pub struct CheckAnswer {
    depth: Depth,
    persons: u32,
    chain: [Item; CHAIN_PERSONS],
}

impl CheckAnswer {
    /// Whether a chain exists.
    #[must_use]
    pub fn yes(&self) -> bool {
        !self.persons().is_empty()
    }

    /// The depth that the chain ends with, the greatest of any; 0 on no.
    #[must_use]
    pub const fn depth(&self) -> Depth {
        self.depth
    }

    /// The persons of the chain, the one with the grant first, nobody twice; none on no. No chain
    /// that ends with this depth has fewer; which of several with as few it is may change with the
    /// version.
    #[must_use]
    pub fn persons(&self) -> &[Item] {
        self.chain.get(..self.persons as usize).unwrap_or_default()
    }
}
