//! The Yukirono rights engine for Rust programs.
//!
//! [`Lists`], [`Rows`], [`Chains`] and [`Tickets`] own the images of a unit and pass bytes and
//! numbers to the engine's C interface; nothing here decides an answer. [`lent`] has the same calls
//! over slices of any length, [`ffi`] the raw declarations. Sizes, limits, numbers and texts are
//! those of include/rights.h. Call [`archive_matches_header`] once at start-up.
//!
//! ```
//! use rights::{Chains, Depth, Item, Refusal, Right};
//!
//! assert!(rights::archive_matches_header());
//! let mut unit = Chains::fresh();
//! unit.create(Item(0), Item(3))?;
//! unit.allow(Item(0), Item(3), Item(3), Right(1), Depth(2))?;
//! assert_eq!(unit.check(Item(3), Item(3), Right(1))?.depth(), Depth(2));
//! assert_eq!(unit.create(Item(0), Item(3)), Err(Refusal::AlreadyLive));
//! # Ok::<(), Refusal>(())
//! ```
//!
//! The crate needs neither a heap nor an operating system. The feature `alloc`, off by default,
//! adds chain units on the heap.
#![no_std]
#![deny(missing_docs, unsafe_code)]

#[cfg(feature = "alloc")]
extern crate alloc;

mod chains;
mod engine;
pub mod ffi;
mod flat;
mod item_set;
pub mod lent;
mod numbers;
mod refusal;
mod tickets;

pub use chains::{Chains, CheckAnswer};
pub use engine::{archive_matches_header, layout_date, version};
pub use flat::{Lists, Rows};
pub use item_set::{ItemSet, Items};
pub use numbers::{Depth, Item, Right, Shift, TicketNumber};
pub use refusal::{answer, NotARefusal, Refusal};
pub use tickets::{Ticket, TicketRecords, Tickets};

include!(concat!(env!("OUT_DIR"), "/constants.rs"));
