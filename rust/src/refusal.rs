use core::fmt;

// The macro `text!`, which has the texts of the header's `rights_text`.
include!(concat!(env!("OUT_DIR"), "/texts.rs"));

/// The refusals by name and number of the header, rising.
macro_rules! refusals {
    ($($name:ident = $number:ident,)*) => {
        /// Why a call was refused. A refused call has changed nothing.
        ///
        /// ```
        /// use rights::{Item, Lists, Refusal};
        ///
        /// let refusal = Lists::fresh().create(Item(0), Item(64)).unwrap_err();
        /// assert_eq!(refusal, Refusal::OutOfRange);
        /// assert_eq!(refusal.number(), 3);
        /// assert_eq!(refusal.text(), "an item, a right, a depth or a shift is above its limit");
        /// assert_eq!(Refusal::try_from(3), Ok(refusal));
        /// ```
        #[derive(Clone, Copy, Debug, PartialEq, Eq, Hash)]
        #[non_exhaustive]
        pub enum Refusal {
            $(
                #[doc = concat!("`RIGHTS_", stringify!($number), "`: ", text!($number), ".")]
                $name,
            )*
            /// A number that this crate has no name for, of an engine other than the header's.
            Unknown(u32),
        }

        impl Refusal {
            /// Every refusal that has a name, by rising number.
            pub const ALL: &'static [Refusal] = &[$(Refusal::$name),*];

            /// The engine's number.
            #[must_use]
            pub const fn number(self) -> u32 {
                match self {
                    $(Refusal::$name => crate::$number,)*
                    Refusal::Unknown(number) => number,
                }
            }

            /// What the header's `rights_text` says of the number.
            #[must_use]
            pub const fn text(self) -> &'static str {
                match self {
                    $(Refusal::$name => text!($number),)*
                    Refusal::Unknown(_) => text!(default),
                }
            }
        }
    };
}

refusals! {
    WrongLength = WRONG_LENGTH,
    NotInOrder = NOT_IN_ORDER,
    OutOfRange = OUT_OF_RANGE,
    ByDead = BY_DEAD,
    NamedDead = NAMED_DEAD,
    AlreadyLive = ALREADY_LIVE,
    RootItem = ROOT_ITEM,
    NoEdit = NO_EDIT,
    EditRight = EDIT_RIGHT,
    Full = FULL,
    Malformed = MALFORMED,
    ShiftBack = SHIFT_BACK,
    LastPast = LAST_PAST,
    EmptySet = EMPTY_SET,
    TicketsFull = TICKETS_FULL,
    NumbersSpent = NUMBERS_SPENT,
    NoTicket = NO_TICKET,
}

impl fmt::Display for Refusal {
    fn fmt(&self, f: &mut fmt::Formatter<'_>) -> fmt::Result {
        write!(f, "refused with {}: {}", self.number(), self.text())
    }
}

impl core::error::Error for Refusal {}

/// A number that names no refusal: 0, which is done, or one that this crate has no name for.
///
/// ```
/// use rights::{NotARefusal, Refusal};
///
/// assert_eq!(Refusal::try_from(0), Err(NotARefusal(0)));
/// assert_eq!(Refusal::try_from(1_000), Err(NotARefusal(1_000)));
/// ```
#[derive(Clone, Copy, Debug, PartialEq, Eq, Hash)]
pub struct NotARefusal(pub u32);

impl fmt::Display for NotARefusal {
    fn fmt(&self, f: &mut fmt::Formatter<'_>) -> fmt::Result {
        write!(f, "{} is the number of no refusal", self.0)
    }
}

impl core::error::Error for NotARefusal {}

impl TryFrom<u32> for Refusal {
    type Error = NotARefusal;

    fn try_from(number: u32) -> Result<Self, NotARefusal> {
        let named = Refusal::ALL.iter().find(|refusal| refusal.number() == number);
        named.copied().ok_or(NotARefusal(number))
    }
}

/// The number of a call as a result, for the functions of [`lent`](crate::lent).
///
/// ```
/// use rights::{answer, lent, Refusal};
///
/// let mut image = [0; rights::LISTS_WORDS];
/// answer(lent::lists::fresh(&mut image))?;
/// assert_eq!(answer(lent::lists::create(&mut image, 0, 64)), Err(Refusal::OutOfRange));
/// # Ok::<(), Refusal>(())
/// ```
pub fn answer(number: u32) -> Result<(), Refusal> {
    if number == crate::DONE {
        return Ok(());
    }
    Err(Refusal::try_from(number).unwrap_or(Refusal::Unknown(number)))
}
