use core::fmt;
use core::iter::FusedIterator;

use crate::{Item, Refusal};

/// A set of items, bit i for item i. Every number of 64 bits is one; [`Default`] is the empty set.
///
/// ```
/// use rights::{Item, ItemSet, Refusal};
///
/// let nurses = [Item(12), Item(0), Item(63)].into_iter().collect::<Result<ItemSet, Refusal>>()?;
/// assert_eq!(nurses, ItemSet(1 << 0 | 1 << 12 | 1 << 63));
/// assert_eq!(nurses.len(), 3);
/// assert!(nurses.contains(Item(12)));
/// assert!(nurses.iter().eq([Item(0), Item(12), Item(63)]));
/// # Ok::<(), Refusal>(())
/// ```
///
/// An item above [`ITEM_MAX`](crate::ITEM_MAX) has no bit. It is refused, never left out unsaid:
///
/// ```
/// use rights::{Item, ItemSet, Refusal};
///
/// let set = [Item(12), Item(64)].into_iter().collect::<Result<ItemSet, Refusal>>();
/// assert_eq!(set, Err(Refusal::OutOfRange));
/// ```
#[derive(Clone, Copy, Default, PartialEq, Eq, Hash)]
pub struct ItemSet(pub u64);

impl ItemSet {
    /// The set of no items.
    ///
    /// ```
    /// assert_eq!(rights::ItemSet::EMPTY, rights::ItemSet(0));
    /// ```
    pub const EMPTY: Self = Self(0);

    /// Whether it has no member.
    ///
    /// ```
    /// use rights::ItemSet;
    ///
    /// assert!(ItemSet::EMPTY.is_empty());
    /// assert!(!ItemSet(1 << 63).is_empty());
    /// ```
    #[must_use]
    pub const fn is_empty(self) -> bool {
        self.0 == 0
    }

    /// The number of members.
    ///
    /// ```
    /// use rights::ItemSet;
    ///
    /// assert_eq!(ItemSet(1 << 0 | 1 << 63).len(), 2);
    /// assert_eq!(ItemSet(u64::MAX).len(), 64);
    /// ```
    #[must_use]
    pub const fn len(self) -> usize {
        self.0.count_ones() as usize
    }

    /// Whether the item is a member; one above [`ITEM_MAX`](crate::ITEM_MAX) never is.
    ///
    /// ```
    /// use rights::{Item, ItemSet};
    ///
    /// let set = ItemSet(1 << 0);
    /// assert!(set.contains(Item(0)));
    /// assert!(!set.contains(Item(63)));
    /// assert!(!set.contains(Item(64)));
    /// ```
    #[must_use]
    pub const fn contains(self, item: Item) -> bool {
        match bit(item) {
            Some(bit) => self.0 & bit != 0,
            None => false,
        }
    }

    /// Makes the item a member; whether it was none before. Refused above
    /// [`ITEM_MAX`](crate::ITEM_MAX), and the set is as it was.
    ///
    /// ```
    /// use rights::{Item, ItemSet, Refusal};
    ///
    /// let mut set = ItemSet::EMPTY;
    /// assert_eq!(set.insert(Item(63)), Ok(true));
    /// assert_eq!(set.insert(Item(63)), Ok(false));
    /// assert_eq!(set.insert(Item(64)), Err(Refusal::OutOfRange));
    /// assert_eq!(set, ItemSet(1 << 63));
    /// ```
    pub fn insert(&mut self, item: Item) -> Result<bool, Refusal> {
        let bit = bit(item).ok_or(Refusal::OutOfRange)?;
        let new = self.0 & bit == 0;
        self.0 |= bit;
        Ok(new)
    }

    /// Makes the item no member; whether it was one before.
    ///
    /// ```
    /// use rights::{Item, ItemSet};
    ///
    /// let mut set = ItemSet(1 << 0 | 1 << 63);
    /// assert!(set.remove(Item(63)));
    /// assert!(!set.remove(Item(63)));
    /// assert!(!set.remove(Item(64)));
    /// assert_eq!(set, ItemSet(1 << 0));
    /// ```
    pub fn remove(&mut self, item: Item) -> bool {
        let was = self.contains(item);
        self.0 &= !bit(item).unwrap_or(0);
        was
    }

    /// The members, rising.
    ///
    /// ```
    /// use rights::{Item, ItemSet};
    ///
    /// assert!(ItemSet(1 << 63 | 1 << 3).iter().eq([Item(3), Item(63)]));
    /// ```
    pub const fn iter(self) -> Items {
        Items { left: self }
    }
}

/// The bit of an item, if it has one.
const fn bit(item: Item) -> Option<u64> {
    1u64.checked_shl(item.0)
}

/// The members, as of any set: `{Item(3), Item(63)}`.
impl fmt::Debug for ItemSet {
    fn fmt(&self, f: &mut fmt::Formatter<'_>) -> fmt::Result {
        f.debug_set().entries(self).finish()
    }
}

/// The set of the items, or [`Refusal::OutOfRange`] where one of them is above
/// [`ITEM_MAX`](crate::ITEM_MAX).
impl FromIterator<Item> for Result<ItemSet, Refusal> {
    fn from_iter<I: IntoIterator<Item = Item>>(items: I) -> Self {
        let mut set = ItemSet::EMPTY;
        for item in items {
            set.insert(item)?;
        }
        Ok(set)
    }
}

impl IntoIterator for ItemSet {
    type Item = Item;
    type IntoIter = Items;

    fn into_iter(self) -> Items {
        self.iter()
    }
}

impl IntoIterator for &ItemSet {
    type Item = Item;
    type IntoIter = Items;

    fn into_iter(self) -> Items {
        self.iter()
    }
}

/// The members of an [`ItemSet`], rising.
///
/// ```
/// use rights::{Item, ItemSet};
///
/// let mut items = ItemSet(1 << 63 | 1 << 3).into_iter();
/// assert_eq!(items.len(), 2);
/// assert_eq!(items.next(), Some(Item(3)));
/// assert_eq!(items.len(), 1);
/// ```
#[derive(Clone, Debug)]
#[must_use]
pub struct Items {
    left: ItemSet,
}

impl Iterator for Items {
    type Item = Item;

    fn next(&mut self) -> Option<Item> {
        // 64 where none is left, which is no member.
        let least = Item(self.left.0.trailing_zeros());
        self.left.remove(least).then_some(least)
    }

    fn size_hint(&self) -> (usize, Option<usize>) {
        (self.left.len(), Some(self.left.len()))
    }
}

impl ExactSizeIterator for Items {}

impl FusedIterator for Items {}
