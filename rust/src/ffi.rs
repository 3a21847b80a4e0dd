//! The declarations of include/rights.h, made from its prototypes; what a function does is said by
//! the comment there.
//!
//! A slice is a pointer and its length in elements, side by side. The header says at its beginning
//! what every pointer must keep; [`lent`](crate::lent) keeps it.
//!
//! ```
//! use rights::ffi::{rights_layout_date, rights_version};
//!
//! // SAFETY: neither function takes a pointer.
//! let (version, date) = unsafe { (rights_version(), rights_layout_date()) };
//! assert_eq!((version, date), (rights::VERSION, rights::LAYOUT_DATE));
//! ```

include!(concat!(env!("OUT_DIR"), "/ffi.rs"));
