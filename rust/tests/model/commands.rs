//! Commands by their arguments, in the order of the papers.

use super::journal::Command;

pub const fn create(by: u32, on: u32) -> Command {
    Command::Create { by, on }
}

pub const fn delete(by: u32, on: u32) -> Command {
    Command::Delete { by, on }
}

pub const fn allow(by: u32, to: u32, on: u32, right: u32, depth: u32) -> Command {
    Command::Allow { by, to, on, right, depth }
}

pub const fn allow_set(by: u32, set: u64, on: u32, right: u32, depth: u32) -> Command {
    Command::AllowSet { by, set, on, right, depth }
}

pub const fn withdraw(by: u32, to: u32, on: u32, right: u32) -> Command {
    Command::Withdraw { by, to, on, right }
}

pub const fn drop(by: u32, to: u32, on: u32, right: u32, depth: u32) -> Command {
    Command::Drop { by, to, on, right, depth }
}

pub const fn lend(by: u32, to: u32, on: u32, right: u32, depth: u32, last: u32) -> Command {
    Command::Lend { by, to, on, right, depth, last }
}

pub const fn recall(by: u32, to: u32, on: u32, right: u32, depth: u32, last: u32) -> Command {
    Command::Recall { by, to, on, right, depth, last }
}

pub const fn shift(by: u32, now: u32) -> Command {
    Command::Shift { by, now }
}

pub const fn sweep(by: u32) -> Command {
    Command::Sweep { by }
}

/// What every handover example starts from.
pub const BASE: [Command; 7] = [
    create(0, 3),
    create(0, 4),
    create(0, 5),
    create(0, 9),
    allow(0, 3, 9, 1, 2),
    lend(3, 4, 9, 1, 1, 0),
    lend(4, 5, 9, 1, 0, 0),
];
