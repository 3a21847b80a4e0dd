//! Document 01 once more, with requests K1 to K3 and K5 to K8 of document 02, in plain Rust over sets.
//! It shares no code with the engine; where the papers leave a choice, it follows the readings in
//! docs/DECISIONS.md.
#![allow(dead_code, unused_imports)]

mod chains;
pub mod commands;
mod images;
mod journal;
mod journals;
mod ticket_images;
pub mod tickets;

pub use chains::{names_nobody_twice, BestChain, Ending};
pub use images::{
    chain_journal, flat_journal, head_of, image_of, loan_of, loans_image, loans_in_order,
    loans_read, word_of, Cell, GrantLayout, Head, Layout, ListLayout, Place, RowLayout,
};
pub use journal::{Command, Grant, Journal, Loan};
pub use journals::{Journals, Numbers};
pub use ticket_images::{record_of, ticket_image, ticket_state, ticket_words, TICKET_WORDS};
pub use tickets::{LiveTicket, TicketCommand, TicketState};
