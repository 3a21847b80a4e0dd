use crate::{answer, lent, Depth, Item, ItemSet, Refusal, Right, LISTS_WORDS, ROWS_BYTES};

/// A unit without depth that owns its image. `root` is the cell of item 0's grants on itself.
macro_rules! own_flat {
    ($(#[$doc:meta])* $name:ident, $unit:ident, $cell:ty, $length:ident, root: $root:literal) => {
        $(#[$doc])*
        #[derive(Clone, Debug, PartialEq, Eq)]
        pub struct $name {
            image: [$cell; $length],
        }

        impl $name {
            /// A fresh unit: item 0 lives and may edit itself. It can begin a static.
            #[must_use]
            pub const fn fresh() -> Self {
                let mut image = [0; $length];
                image[0] = 1;
                image[$root] = 1;
                Self { image }
            }

            /// The unit of a stored image, if the engine finds it in order.
            pub fn from_image(image: &[$cell]) -> Result<Self, Refusal> {
                answer(lent::$unit::inspect(image))?;
                let mut unit = Self::fresh();
                unit.image.copy_from_slice(image);
                Ok(unit)
            }

            /// The image, to be stored.
            #[must_use]
            pub const fn image(&self) -> &[$cell; $length] {
                &self.image
            }

            /// `on` lives, and `by` may edit it.
            pub fn create(&mut self, by: Item, on: Item) -> Result<(), Refusal> {
                answer(lent::$unit::create(&mut self.image, by.0, on.0))
            }

            /// `on` lives no longer, and every grant that names it ends.
            pub fn delete(&mut self, by: Item, on: Item) -> Result<(), Refusal> {
                answer(lent::$unit::delete(&mut self.image, by.0, on.0))
            }

            /// Grants the right on the item to `to`; the depth is judged and dropped.
            pub fn allow(
                &mut self,
                by: Item,
                to: Item,
                on: Item,
                right: Right,
                depth: Depth,
            ) -> Result<(), Refusal> {
                answer(lent::$unit::allow(&mut self.image, by.0, to.0, on.0, right.0, depth.0))
            }

            /// Grants the right on the item to every member of the set: what
            /// [`allow`](Self::allow) does for each of them, in any order, or nothing where any of
            /// them would be refused. The empty set is refused with [`Refusal::EmptySet`].
            pub fn allow_set(
                &mut self,
                by: Item,
                set: ItemSet,
                on: Item,
                right: Right,
                depth: Depth,
            ) -> Result<(), Refusal> {
                answer(lent::$unit::allow_set(&mut self.image, by.0, set.0, on.0, right.0, depth.0))
            }

            /// Ends the grant of the right on the item to `to`.
            pub fn withdraw(
                &mut self,
                by: Item,
                to: Item,
                on: Item,
                right: Right,
            ) -> Result<(), Refusal> {
                answer(lent::$unit::withdraw(&mut self.image, by.0, to.0, on.0, right.0))
            }

            /// Whether the right on the item is granted to `who`.
            pub fn check(&self, who: Item, on: Item, right: Right) -> Result<bool, Refusal> {
                let (number, yes) = lent::$unit::check(&self.image, who.0, on.0, right.0);
                answer(number).map(|()| yes != 0)
            }

            /// The persons with at least one grant, bit i for item i: as items, those of
            /// `ItemSet(unit.subjects())`.
            #[must_use]
            pub fn subjects(&self) -> u64 {
                // The engine refuses no image in order, and beside a refusal it names nobody.
                lent::$unit::subjects(&self.image).1
            }
        }

        impl Default for $name {
            fn default() -> Self {
                Self::fresh()
            }
        }
    };
}

own_flat!(
    /// Access control lists: for each item and right, the persons granted.
    ///
    /// ```
    /// use rights::{Depth, Item, Lists, Refusal, Right};
    ///
    /// let mut lists = Lists::fresh();
    /// lists.create(Item(0), Item(3))?;
    /// lists.create(Item(0), Item(9))?;
    /// lists.allow(Item(0), Item(3), Item(9), Right(1), Depth(0))?;
    /// assert!(lists.check(Item(3), Item(9), Right(1))?);
    /// assert!(!lists.check(Item(0), Item(9), Right(1))?);
    /// assert_eq!(lists.subjects(), 1 << 0 | 1 << 3);
    ///
    /// let stored = lists.image().to_vec();
    /// assert_eq!(Lists::from_image(&stored)?, lists);
    /// assert_eq!(Lists::from_image(&stored[1..]), Err(Refusal::WrongLength));
    /// # Ok::<(), Refusal>(())
    /// ```
    ///
    /// One command grants a right to many persons, or to none:
    ///
    /// ```
    /// use rights::{Depth, Item, ItemSet, Lists, Refusal, Right};
    ///
    /// let mut lists = Lists::fresh();
    /// for item in [3, 4, 9] {
    ///     lists.create(Item(0), Item(item))?;
    /// }
    /// let mut set = ItemSet(1 << 3 | 1 << 4 | 1 << 5);
    /// let refused = lists.allow_set(Item(0), set, Item(9), Right(1), Depth(0));
    /// assert_eq!(refused, Err(Refusal::NamedDead));
    /// assert_eq!(ItemSet(lists.subjects()), ItemSet(1 << 0));
    ///
    /// set.remove(Item(5));
    /// lists.allow_set(Item(0), set, Item(9), Right(1), Depth(0))?;
    /// assert_eq!(ItemSet(lists.subjects()), ItemSet(1 << 0 | 1 << 3 | 1 << 4));
    /// # Ok::<(), Refusal>(())
    /// ```
    Lists, lists, u64, LISTS_WORDS, root: 1
);

own_flat!(
    /// Capability rows: for each person and item, the rights granted.
    ///
    /// ```
    /// use rights::{Depth, Item, ItemSet, Lists, Refusal, Right, Rows};
    ///
    /// let mut rows = Rows::fresh();
    /// rows.create(Item(0), Item(3))?;
    /// rows.allow(Item(0), Item(3), Item(3), Right(7), Depth(0))?;
    /// assert_eq!(rows.image()[8 + 64 * 3 + 3], 1 << 7);
    /// rows.allow_set(Item(0), ItemSet(1 << 0 | 1 << 3), Item(3), Right(2), Depth(0))?;
    /// assert_eq!(rows.image()[8 + 64 * 3 + 3], 1 << 7 | 1 << 2);
    /// assert_eq!(Rows::from(&Lists::from(&rows)), rows);
    /// # Ok::<(), Refusal>(())
    /// ```
    Rows, rows, u8, ROWS_BYTES, root: 8
);

/// Turns one unit into the other.
macro_rules! convert_flat {
    ($from:ident, $into:ident, $call:ident, $length:ident) => {
        impl From<&$from> for $into {
            fn from(unit: &$from) -> Self {
                let mut image = [0; $length];
                // The engine refuses no image in order; were it to, the zeros would stay, and every
                // call refuses those.
                let _ = lent::convert::$call(&unit.image, &mut image);
                Self { image }
            }
        }
    };
}

convert_flat!(Lists, Rows, lists_to_rows, ROWS_BYTES);
convert_flat!(Rows, Lists, rows_to_lists, LISTS_WORDS);
