//! The engine over lent slices of any length, by plain numbers.
//!
//! Each function passes its slices and numbers on and returns the number that the engine gives: 0
//! done, any other refused; [`answer`](crate::answer) makes a result of it. A slice of a wrong
//! length is refused with 1. The types [`Lists`](crate::Lists), [`Rows`](crate::Rows),
//! [`Chains`](crate::Chains) and [`Tickets`](crate::Tickets) own images of the right length and need
//! none of this.
//!
//! ```
//! use rights::lent;
//!
//! let mut image = vec![0; rights::ROWS_BYTES];
//! assert_eq!(lent::rows::fresh(&mut image), rights::DONE);
//! assert_eq!(lent::rows::fresh(&mut image[1..]), rights::WRONG_LENGTH);
//! ```
#![allow(unsafe_code)]
// SAFETY of every call below: it lends the pointer and the length of one slice, side by side, for
// the time of the call, and a shared slice only to a parameter that is not written. That is all
// that the header asks.

/// The functions of a unit without depth, over its one slice.
macro_rules! lend_flat {
    ($(#[$doc:meta])* $unit:ident, $cell:ty, $fresh:ident, $create:ident, $delete:ident,
     $allow:ident, $allow_set:ident, $withdraw:ident, $check:ident, $subjects:ident,
     $inspect:ident) => {
        $(#[$doc])*
        pub mod $unit {
            use crate::ffi;

            /// Makes a fresh unit, whatever the image held.
            #[must_use]
            pub fn fresh(image: &mut [$cell]) -> u32 {
                unsafe { ffi::$fresh(image.as_mut_ptr(), image.len()) }
            }

            /// create (by, on).
            #[must_use]
            pub fn create(image: &mut [$cell], by: u32, on: u32) -> u32 {
                unsafe { ffi::$create(image.as_mut_ptr(), image.len(), by, on) }
            }

            /// delete (by, on).
            #[must_use]
            pub fn delete(image: &mut [$cell], by: u32, on: u32) -> u32 {
                unsafe { ffi::$delete(image.as_mut_ptr(), image.len(), by, on) }
            }

            /// allow (by, to, on, right, depth); the depth is judged and dropped.
            #[must_use]
            pub fn allow(
                image: &mut [$cell],
                by: u32,
                to: u32,
                on: u32,
                right: u32,
                depth: u32,
            ) -> u32 {
                unsafe { ffi::$allow(image.as_mut_ptr(), image.len(), by, to, on, right, depth) }
            }

            /// allowset (by, set, on, right, depth), where bit i of the set is for item i; the depth
            /// is judged and dropped.
            #[must_use]
            pub fn allow_set(
                image: &mut [$cell],
                by: u32,
                set: u64,
                on: u32,
                right: u32,
                depth: u32,
            ) -> u32 {
                let (at, length) = (image.as_mut_ptr(), image.len());
                unsafe { ffi::$allow_set(at, length, by, set, on, right, depth) }
            }

            /// withdraw (by, to, on, right).
            #[must_use]
            pub fn withdraw(image: &mut [$cell], by: u32, to: u32, on: u32, right: u32) -> u32 {
                unsafe { ffi::$withdraw(image.as_mut_ptr(), image.len(), by, to, on, right) }
            }

            /// check (who, on, right): the number, and 1 for yes or 0 for no.
            #[must_use]
            pub fn check(image: &[$cell], who: u32, on: u32, right: u32) -> (u32, u32) {
                let mut yes = u32::MAX;
                let number = unsafe {
                    ffi::$check(image.as_ptr(), image.len(), who, on, right, &mut yes)
                };
                (number, yes)
            }

            /// The number, and the persons with at least one grant, bit i for item i.
            #[must_use]
            pub fn subjects(image: &[$cell]) -> (u32, u64) {
                let mut persons = u64::MAX;
                let number =
                    unsafe { ffi::$subjects(image.as_ptr(), image.len(), &mut persons) };
                (number, persons)
            }

            /// 0 in order, 1 wrong length, 2 not in order.
            #[must_use]
            pub fn inspect(image: &[$cell]) -> u32 {
                unsafe { ffi::$inspect(image.as_ptr(), image.len()) }
            }
        }
    };
}

lend_flat!(
    /// Access control lists over [`LISTS_WORDS`](crate::LISTS_WORDS) words.
    ///
    /// ```
    /// use rights::lent::lists;
    ///
    /// let mut image = [0; rights::LISTS_WORDS];
    /// assert_eq!(lists::fresh(&mut image), 0);
    /// assert_eq!(lists::create(&mut image, 0, 9), 0);
    /// assert_eq!(lists::allow(&mut image, 0, 9, 0, 1, 0), 0);
    /// assert_eq!(lists::check(&image, 9, 0, 1), (0, 1));
    /// assert_eq!(lists::subjects(&image), (0, 1 << 0 | 1 << 9));
    /// assert_eq!(lists::withdraw(&mut image, 0, 9, 0, 1), 0);
    /// assert_eq!(lists::check(&image, 9, 0, 1), (0, 0));
    /// assert_eq!(lists::allow_set(&mut image, 0, 1 << 0 | 1 << 9, 0, 1, 0), 0);
    /// assert_eq!(lists::check(&image, 9, 0, 1), (0, 1));
    /// image[0] = 0;
    /// assert_eq!(lists::inspect(&image), rights::NOT_IN_ORDER);
    /// ```
    lists,
    u64,
    rights_lists_fresh,
    rights_lists_create,
    rights_lists_delete,
    rights_lists_allow,
    rights_lists_allow_set,
    rights_lists_withdraw,
    rights_lists_check,
    rights_lists_subjects,
    rights_lists_inspect
);

lend_flat!(
    /// Capability rows over [`ROWS_BYTES`](crate::ROWS_BYTES) bytes.
    ///
    /// ```
    /// use rights::lent::rows;
    ///
    /// let mut image = [0; rights::ROWS_BYTES];
    /// assert_eq!(rows::fresh(&mut image), 0);
    /// assert_eq!(rows::create(&mut image, 0, 9), 0);
    /// assert_eq!(rows::check(&image, 0, 9, 0), (0, 1));
    /// assert_eq!(rows::allow_set(&mut image, 0, 1 << 9 | 1 << 63, 9, 1, 0), rights::NAMED_DEAD);
    /// assert_eq!(rows::delete(&mut image, 0, 9), 0);
    /// assert_eq!(rows::check(&image, 0, 9, 0), (0, 0));
    /// assert_eq!(rows::inspect(&image[1..]), rights::WRONG_LENGTH);
    /// ```
    rows,
    u8,
    rights_rows_fresh,
    rights_rows_create,
    rights_rows_delete,
    rights_rows_allow,
    rights_rows_allow_set,
    rights_rows_withdraw,
    rights_rows_check,
    rights_rows_subjects,
    rights_rows_inspect
);

/// Lists into rows and rows into lists; the image that is written is not judged.
///
/// ```
/// use rights::lent::{convert, lists, rows};
///
/// let (mut words, mut bytes) = ([0; rights::LISTS_WORDS], [7; rights::ROWS_BYTES]);
/// assert_eq!(lists::fresh(&mut words), 0);
/// assert_eq!(convert::lists_to_rows(&words, &mut bytes), 0);
/// assert_eq!(rows::check(&bytes, 0, 0, 0), (0, 1));
/// let fresh = words;
/// assert_eq!(convert::rows_to_lists(&bytes, &mut words), 0);
/// assert_eq!(words, fresh);
/// ```
pub mod convert {
    use crate::ffi;

    /// Writes the rows of the lists.
    #[must_use]
    pub fn lists_to_rows(lists: &[u64], rows: &mut [u8]) -> u32 {
        unsafe {
            ffi::rights_lists_to_rows(lists.as_ptr(), lists.len(), rows.as_mut_ptr(), rows.len())
        }
    }

    /// Writes the lists of the rows.
    #[must_use]
    pub fn rows_to_lists(rows: &[u8], lists: &mut [u64]) -> u32 {
        unsafe {
            ffi::rights_rows_to_lists(rows.as_ptr(), rows.len(), lists.as_mut_ptr(), lists.len())
        }
    }
}

/// The chain unit over [`GRANTS_BYTES`](crate::GRANTS_BYTES) bytes of grants and
/// [`LOANS_WORDS`](crate::LOANS_WORDS) words of loans.
///
/// ```
/// use rights::lent::chains;
///
/// let (mut grants, mut loans) = (vec![0; rights::GRANTS_BYTES], vec![0; rights::LOANS_WORDS]);
/// assert_eq!(chains::fresh(&mut grants, &mut loans), 0);
/// assert_eq!(chains::create(&mut grants, &mut loans, 0, 9), 0);
/// assert_eq!(chains::allow_set(&mut grants, &mut loans, 0, 1 << 0 | 1 << 9, 9, 1, 3), 0);
/// assert_eq!(grants[8 + 512 * 9 + 64..][..10], [1 << 3, 0, 0, 0, 0, 0, 0, 0, 0, 1 << 3]);
/// assert_eq!(chains::lend(&mut grants, &mut loans, 0, 9, 9, 1, 0, 2), 0);
/// assert_eq!(loans[0], 1);
/// assert_eq!(chains::shift(&mut grants, &mut loans, 0, 3), 0);
/// assert_eq!(loans[0], (3 << 16) + 1);
/// assert_eq!(chains::shift(&mut grants, &mut loans, 0, 2), rights::SHIFT_BACK);
/// assert_eq!(chains::sweep(&mut grants, &mut loans, 9), (0, 1));
/// assert_eq!(loans[0], 3 << 16);
/// assert_eq!(chains::shift(&mut grants, &mut loans, 0, 2), 0);
/// assert_eq!(chains::lend(&mut grants, &mut loans, 0, 9, 9, 1, 0, 2), 0);
/// assert_eq!(chains::recall(&mut grants, &mut loans, 0, 9, 9, 1, 0, 2), 0);
/// assert_eq!(loans[0], 2 << 16);
/// assert_eq!(chains::drop(&mut grants, &mut loans, 0, 9, 9, 1, 3), 0);
/// assert_eq!(grants[8 + 512 * 9 + 64..][..10], [1 << 3, 0, 0, 0, 0, 0, 0, 0, 0, 0]);
/// loans[0] = 1;
/// assert_eq!(chains::inspect(&grants, &loans), rights::NOT_IN_ORDER);
/// ```
pub mod chains {
    use crate::ffi;

    /// What a check returned and wrote beside the chain.
    ///
    /// ```
    /// use rights::lent::chains::{check, fresh, Checked};
    ///
    /// let (mut grants, mut loans) = (vec![0; rights::GRANTS_BYTES], vec![0; rights::LOANS_WORDS]);
    /// assert_eq!(fresh(&mut grants, &mut loans), 0);
    /// let mut chain = [0; rights::CHAIN_PERSONS];
    /// let checked = check(&grants, &loans, 0, 0, 0, &mut chain);
    /// assert_eq!(checked, Checked { number: 0, depth: 0, persons: 1 });
    /// assert_eq!(chain, [0, 255, 255, 255, 255, 255, 255, 255]);
    /// ```
    #[must_use]
    #[derive(Clone, Copy, Debug, PartialEq, Eq)]
    pub struct Checked {
        /// The engine's number.
        pub number: u32,
        /// The depth the chain ends with; 0 on no and beside a refusal.
        pub depth: u32,
        /// The number of persons in the chain, the fewest of any that ends with this depth; 0 on
        /// no and beside a refusal.
        pub persons: u32,
    }

    /// A command of the chain unit, with its arguments in the order of the journal.
    macro_rules! lend_command {
        ($(#[$doc:meta])* $name:ident, $call:ident $(, $argument:ident: $kind:ty)*) => {
            $(#[$doc])*
            #[must_use]
            // As many as the command has.
            #[allow(clippy::too_many_arguments)]
            pub fn $name(grants: &mut [u8], loans: &mut [u32] $(, $argument: $kind)*) -> u32 {
                unsafe {
                    ffi::$call(
                        grants.as_mut_ptr(),
                        grants.len(),
                        loans.as_mut_ptr(),
                        loans.len()
                        $(, $argument)*
                    )
                }
            }
        };
    }

    lend_command!(
        /// Makes a fresh unit, whatever the images held.
        fresh, rights_chains_fresh
    );
    lend_command!(
        /// create (by, on).
        create, rights_chains_create, by: u32, on: u32
    );
    lend_command!(
        /// delete (by, on).
        delete, rights_chains_delete, by: u32, on: u32
    );
    lend_command!(
        /// allow (by, to, on, right, depth).
        allow, rights_chains_allow, by: u32, to: u32, on: u32, right: u32, depth: u32
    );
    lend_command!(
        /// allowset (by, set, on, right, depth), where bit i of the set is for item i.
        allow_set, rights_chains_allow_set, by: u32, set: u64, on: u32, right: u32, depth: u32
    );
    lend_command!(
        /// withdraw (by, to, on, right); where a grant ends, so do the loans that `to` made there.
        withdraw, rights_chains_withdraw, by: u32, to: u32, on: u32, right: u32
    );
    lend_command!(
        /// drop (by, to, on, right, depth); with the last depth end the loans that `to` made there.
        drop, rights_chains_drop, by: u32, to: u32, on: u32, right: u32, depth: u32
    );
    lend_command!(
        /// lend (by, to, on, right, depth, last); `last` 0 is a loan that is open-ended.
        lend, rights_chains_lend, by: u32, to: u32, on: u32, right: u32, depth: u32, last: u32
    );
    lend_command!(
        /// recall (by, to, on, right, depth, last).
        recall, rights_chains_recall, by: u32, to: u32, on: u32, right: u32, depth: u32, last: u32
    );
    lend_command!(
        /// shift (by, now); `now` becomes the present shift.
        shift, rights_chains_shift, by: u32, now: u32
    );

    /// sweep (by): the number, and how many loans were past their last shift and have ended, 0
    /// beside a refusal.
    #[must_use]
    pub fn sweep(grants: &mut [u8], loans: &mut [u32], by: u32) -> (u32, u32) {
        let mut swept = u32::MAX;
        let (at, length) = (grants.as_mut_ptr(), grants.len());
        let (table, words) = (loans.as_mut_ptr(), loans.len());
        let number = unsafe { ffi::rights_chains_sweep(at, length, table, words, by, &mut swept) };
        (number, swept)
    }

    /// check (who, on, right), with a buffer of [`CHAIN_PERSONS`](crate::CHAIN_PERSONS) bytes for
    /// the chain: one with the greatest depth of any and, among those, the fewest persons. Which of
    /// several such chains it is may change with the version.
    pub fn check(
        grants: &[u8],
        loans: &[u32],
        who: u32,
        on: u32,
        right: u32,
        chain: &mut [u8],
    ) -> Checked {
        let mut depth = u32::MAX;
        let mut persons = u32::MAX;
        let number = unsafe {
            ffi::rights_chains_check(
                grants.as_ptr(),
                grants.len(),
                loans.as_ptr(),
                loans.len(),
                who,
                on,
                right,
                chain.as_mut_ptr(),
                chain.len(),
                &mut depth,
                &mut persons,
            )
        };
        Checked { number, depth, persons }
    }

    /// 0 in order, 1 wrong length, 2 not in order.
    #[must_use]
    pub fn inspect(grants: &[u8], loans: &[u32]) -> u32 {
        unsafe {
            ffi::rights_chains_inspect(grants.as_ptr(), grants.len(), loans.as_ptr(), loans.len())
        }
    }
}

/// The ticket unit over [`TICKETS_WORDS`](crate::TICKETS_WORDS) words, and its
/// [`TICKETS_MAX`](crate::TICKETS_MAX) records.
///
/// ```
/// use rights::lent::tickets;
/// use rights::Ticket;
///
/// let mut image = vec![9; rights::TICKETS_WORDS];
/// assert_eq!(tickets::fresh(&mut image), 0);
/// assert_eq!(tickets::create(&mut image, 0, 3), 0);
/// assert_eq!(tickets::create(&mut image, 0, 9), 0);
/// // Tickets 1 and 2 are those of the two creates.
/// assert_eq!(tickets::generate(&mut image, 0, 9, 1), (0, 3));
/// assert_eq!(tickets::generate(&mut image, 3, 9, 1), (rights::NO_TICKET, 0));
/// assert_eq!(tickets::pass(&mut image, 0, 3, 3), 0);
/// assert_eq!(tickets::check(&image, 3, 9, 1), (0, 1));
/// assert_eq!(image[2 + 2 * 3..][..2], [3 + (9 << 32) + (1 << 40), 1 << 0 | 1 << 3]);
///
/// let mut records = vec![Ticket::VACANT; rights::TICKETS_MAX];
/// assert_eq!(tickets::records(&image, &mut records), 0);
/// let third = Ticket { number: 3, item: 9, right: 1, issuer: 0, holders: 1 << 0 | 1 << 3 };
/// assert_eq!(tickets::at(&records, 3), third);
/// assert_eq!(tickets::check_records(&records, 3, 9, 1), (0, 1));
///
/// assert_eq!(tickets::remove(&mut image, 0, 3), 0);
/// assert_eq!(tickets::check(&image, 3, 9, 1), (0, 0));
/// assert_eq!(tickets::delete(&mut image, 0, 9), 0);
/// image[1] = 1;
/// assert_eq!(tickets::inspect(&image), rights::NOT_IN_ORDER);
/// ```
pub mod tickets {
    use crate::{ffi, Ticket};

    /// Makes a fresh unit, whatever the image held.
    #[must_use]
    pub fn fresh(image: &mut [u64]) -> u32 {
        unsafe { ffi::rights_tickets_fresh(image.as_mut_ptr(), image.len()) }
    }

    /// create (by, on).
    #[must_use]
    pub fn create(image: &mut [u64], by: u32, on: u32) -> u32 {
        unsafe { ffi::rights_tickets_create(image.as_mut_ptr(), image.len(), by, on) }
    }

    /// generate (by, on, right): the number, and that of the new ticket, 0 beside a refusal.
    #[must_use]
    pub fn generate(image: &mut [u64], by: u32, on: u32, right: u32) -> (u32, u32) {
        let mut ticket = u32::MAX;
        let (at, length) = (image.as_mut_ptr(), image.len());
        let number =
            unsafe { ffi::rights_tickets_generate(at, length, by, on, right, &mut ticket) };
        (number, ticket)
    }

    /// pass (by, to, number).
    #[must_use]
    pub fn pass(image: &mut [u64], by: u32, to: u32, number: u32) -> u32 {
        unsafe { ffi::rights_tickets_pass(image.as_mut_ptr(), image.len(), by, to, number) }
    }

    /// remove (by, number).
    #[must_use]
    pub fn remove(image: &mut [u64], by: u32, number: u32) -> u32 {
        unsafe { ffi::rights_tickets_remove(image.as_mut_ptr(), image.len(), by, number) }
    }

    /// delete (by, on).
    #[must_use]
    pub fn delete(image: &mut [u64], by: u32, on: u32) -> u32 {
        unsafe { ffi::rights_tickets_delete(image.as_mut_ptr(), image.len(), by, on) }
    }

    /// check (who, on, right): the number, and 1 for yes or 0 for no.
    #[must_use]
    pub fn check(image: &[u64], who: u32, on: u32, right: u32) -> (u32, u32) {
        let mut yes = u32::MAX;
        let (at, length) = (image.as_ptr(), image.len());
        let number = unsafe { ffi::rights_tickets_check(at, length, who, on, right, &mut yes) };
        (number, yes)
    }

    /// 0 in order, 1 wrong length, 2 not in order.
    #[must_use]
    pub fn inspect(image: &[u64]) -> u32 {
        unsafe { ffi::rights_tickets_inspect(image.as_ptr(), image.len()) }
    }

    /// Writes the records of the image, in their places.
    #[must_use]
    pub fn records(image: &[u64], tickets: &mut [Ticket]) -> u32 {
        let (to, places) = (tickets.as_mut_ptr(), tickets.len());
        unsafe { ffi::rights_tickets_records(image.as_ptr(), image.len(), to, places) }
    }

    /// The record at a place, from 0 on, of any number of records;
    /// [`Ticket::VACANT`] past the last one.
    #[must_use]
    pub fn at(tickets: &[Ticket], place: usize) -> Ticket {
        unsafe { ffi::rights_tickets_at(tickets.as_ptr(), tickets.len(), place) }
    }

    /// check (who, on, right) over the records that [`records`] wrote, whose order it does not
    /// judge: the number, and 1 for yes or 0 for no.
    #[must_use]
    pub fn check_records(tickets: &[Ticket], who: u32, on: u32, right: u32) -> (u32, u32) {
        let mut yes = u32::MAX;
        let (at, places) = (tickets.as_ptr(), tickets.len());
        let number =
            unsafe { ffi::rights_tickets_check_records(at, places, who, on, right, &mut yes) };
        (number, yes)
    }
}
