//! The journal twice: as the chain unit follows it, and as lists and rows do, which pass drop over and
//! keep a state of their own. "Lists and rows pass it over and are held to the journal only on lists
//! without drop, the chain unit on all."

use super::journal::{Command, Journal};

/// The journal that is fed every command, and the one that is fed those of lists and rows alone.
#[derive(Clone, Debug, PartialEq, Eq)]
pub struct Journals {
    pub chains: Journal,
    pub flat: Journal,
}

/// What the units answer to a command; lists and rows nothing where they lack it.
#[derive(Clone, Copy, Debug, PartialEq, Eq)]
pub struct Numbers {
    pub chains: u32,
    /// The chain unit's count beside its number.
    pub count: u32,
    pub flat: Option<u32>,
}

impl Numbers {
    /// The chain unit's number beside that of lists and rows, of a command that counts nothing.
    pub fn counting_nothing(chains: u32, flat: Option<u32>) -> Self {
        Self { chains, count: 0, flat }
    }
}

impl Journals {
    pub fn fresh() -> Self {
        Self { chains: Journal::fresh(), flat: Journal::fresh() }
    }

    pub fn answer(&self, command: Command) -> Numbers {
        let flat = command.is_flat().then(|| self.flat.answer(command));
        let (chains, count) = self.chains.returns(command);
        Numbers { chains, count, flat }
    }

    /// Takes a command: its numbers, and on 0 the change.
    pub fn give(&mut self, command: Command) -> Numbers {
        let flat = command.is_flat().then(|| self.flat.give(command).0);
        let (chains, count) = self.chains.give(command);
        Numbers { chains, count, flat }
    }

    /// The two say the same of items and grants: no drop has parted them.
    pub fn agree(&self) -> bool {
        self.chains.live == self.flat.live && self.chains.grants == self.flat.grants
    }
}
