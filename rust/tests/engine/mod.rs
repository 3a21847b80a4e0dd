//! The engine's calls by the model's commands.
#![allow(dead_code)]

use rights::lent;
use rights::lent::chains::Checked;

use crate::model::{Command, Layout, ListLayout, RowLayout, TicketCommand};

/// A unit without depth: its image's layout and its calls.
pub trait Flat: Layout {
    const NAME: &'static str;
    type Other: Layout;
    fn fresh(image: &mut [Self::Cell]) -> u32;
    /// None where the unit lacks the command.
    fn give(image: &mut [Self::Cell], command: Command) -> Option<u32>;
    fn check(image: &[Self::Cell], question: (u32, u32, u32)) -> (u32, u32);
    fn subjects(image: &[Self::Cell]) -> (u32, u64);
    fn inspect(image: &[Self::Cell]) -> u32;
    fn convert(image: &[Self::Cell], into: &mut [<Self::Other as Layout>::Cell]) -> u32;
}

macro_rules! flat {
    ($layout:ident, $other:ident, $unit:ident, $name:literal, $convert:ident) => {
        impl Flat for $layout {
            const NAME: &'static str = $name;
            type Other = $other;

            fn fresh(image: &mut [Self::Cell]) -> u32 {
                lent::$unit::fresh(image)
            }

            fn give(image: &mut [Self::Cell], command: Command) -> Option<u32> {
                match command {
                    Command::Create { by, on } => Some(lent::$unit::create(image, by, on)),
                    Command::Delete { by, on } => Some(lent::$unit::delete(image, by, on)),
                    Command::Allow { by, to, on, right, depth } => {
                        Some(lent::$unit::allow(image, by, to, on, right, depth))
                    }
                    Command::AllowSet { by, set, on, right, depth } => {
                        Some(lent::$unit::allow_set(image, by, set, on, right, depth))
                    }
                    Command::Withdraw { by, to, on, right } => {
                        Some(lent::$unit::withdraw(image, by, to, on, right))
                    }
                    Command::Drop { .. }
                    | Command::Lend { .. }
                    | Command::Recall { .. }
                    | Command::Shift { .. }
                    | Command::Sweep { .. } => None,
                }
            }

            fn check(image: &[Self::Cell], (who, on, right): (u32, u32, u32)) -> (u32, u32) {
                lent::$unit::check(image, who, on, right)
            }

            fn subjects(image: &[Self::Cell]) -> (u32, u64) {
                lent::$unit::subjects(image)
            }

            fn inspect(image: &[Self::Cell]) -> u32 {
                lent::$unit::inspect(image)
            }

            fn convert(image: &[Self::Cell], into: &mut [<$other as Layout>::Cell]) -> u32 {
                lent::convert::$convert(image, into)
            }
        }
    };
}

flat!(ListLayout, RowLayout, lists, "lists", lists_to_rows);
flat!(RowLayout, ListLayout, rows, "rows", rows_to_lists);

/// The number of a command to the chain unit, and the count that sweep gave beside it; 0 of a command
/// that gives none.
pub fn give_chains(grants: &mut [u8], loans: &mut [u32], command: Command) -> (u32, u32) {
    let number = match command {
        Command::Create { by, on } => lent::chains::create(grants, loans, by, on),
        Command::Delete { by, on } => lent::chains::delete(grants, loans, by, on),
        Command::Allow { by, to, on, right, depth } => {
            lent::chains::allow(grants, loans, by, to, on, right, depth)
        }
        Command::AllowSet { by, set, on, right, depth } => {
            lent::chains::allow_set(grants, loans, by, set, on, right, depth)
        }
        Command::Withdraw { by, to, on, right } => {
            lent::chains::withdraw(grants, loans, by, to, on, right)
        }
        Command::Drop { by, to, on, right, depth } => {
            lent::chains::drop(grants, loans, by, to, on, right, depth)
        }
        Command::Lend { by, to, on, right, depth, last } => {
            lent::chains::lend(grants, loans, by, to, on, right, depth, last)
        }
        Command::Recall { by, to, on, right, depth, last } => {
            lent::chains::recall(grants, loans, by, to, on, right, depth, last)
        }
        Command::Shift { by, now } => lent::chains::shift(grants, loans, by, now),
        Command::Sweep { by } => return lent::chains::sweep(grants, loans, by),
    };
    (number, 0)
}

pub fn check_chains(
    grants: &[u8],
    loans: &[u32],
    (who, on, right): (u32, u32, u32),
    chain: &mut [u8],
) -> Checked {
    lent::chains::check(grants, loans, who, on, right, chain)
}

/// The number of a command to the ticket unit, and that of the new ticket which generate gave beside
/// it; 0 of a command that gives none.
pub fn give_tickets(image: &mut [u64], command: TicketCommand) -> (u32, u32) {
    match command {
        TicketCommand::Create { by, on } => (lent::tickets::create(image, by, on), 0),
        TicketCommand::Generate { by, on, right } => lent::tickets::generate(image, by, on, right),
        TicketCommand::Pass { by, to, number } => (lent::tickets::pass(image, by, to, number), 0),
        TicketCommand::Remove { by, number } => (lent::tickets::remove(image, by, number), 0),
        TicketCommand::Delete { by, on } => (lent::tickets::delete(image, by, on), 0),
    }
}
