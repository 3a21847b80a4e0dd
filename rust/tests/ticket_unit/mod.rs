//! A ticket unit over a slice, given fixed commands and asked fixed questions, with the papers' state
//! beside it: every command is compared with both.
#![allow(dead_code)]

use rights::lent::tickets;

use crate::engine::give_tickets;
use crate::model::tickets::{LAST_NUMBER, PLACES};
use crate::model::{ticket_image, LiveTicket, TicketCommand, TicketState};

pub const fn create(by: u32, on: u32) -> TicketCommand {
    TicketCommand::Create { by, on }
}

pub const fn generate(by: u32, on: u32, right: u32) -> TicketCommand {
    TicketCommand::Generate { by, on, right }
}

pub const fn pass(by: u32, to: u32, number: u32) -> TicketCommand {
    TicketCommand::Pass { by, to, number }
}

pub const fn remove(by: u32, number: u32) -> TicketCommand {
    TicketCommand::Remove { by, number }
}

pub const fn delete(by: u32, on: u32) -> TicketCommand {
    TicketCommand::Delete { by, on }
}

/// A ticket by its fields and holders.
pub fn ticket(number: u32, item: u32, right: u32, issuer: u32, holders: &[u32]) -> LiveTicket {
    LiveTicket { number, item, right, issuer, holders: holders.iter().copied().collect() }
}

#[derive(Clone)]
pub struct TicketUnit {
    pub image: Vec<u64>,
    pub state: TicketState,
}

impl TicketUnit {
    /// A fresh unit, made in a buffer that held something else.
    pub fn fresh() -> Self {
        let mut image = vec![u64::MAX; 2050];
        assert_eq!(tickets::fresh(&mut image), 0, "fresh");
        let unit = Self { image, state: TicketState::fresh() };
        unit.assert_image("fresh");
        unit
    }

    /// The unit of a state.
    pub fn of(state: TicketState) -> Self {
        let unit = Self { image: ticket_image(&state), state };
        assert_eq!(tickets::inspect(&unit.image), 0, "a state in order");
        unit
    }

    /// A fresh unit after commands that it accepts.
    pub fn after(commands: &[TicketCommand]) -> Self {
        let mut unit = Self::fresh();
        unit.accept(commands);
        unit
    }

    /// Items 0 to 3 live, and 1,024 tickets with them; ticket 1,023 is the last.
    pub fn full() -> Self {
        let mut unit = Self::after(&[create(0, 1), create(0, 2), create(1, 3)]);
        (4..1024).for_each(|n| unit.accept(&[generate(0, n % 3, n % 8)]));
        assert_eq!(unit.state.tickets.len(), PLACES);
        unit
    }

    /// The unit with another next number, which is not below the present one.
    pub fn with_next(mut self, next: u32) -> Self {
        assert!(self.state.next <= next);
        self.state.next = next;
        Self::of(self.state)
    }

    /// The unit whose numbers are all used.
    pub fn spent(self) -> Self {
        self.with_next(LAST_NUMBER)
    }

    #[track_caller]
    pub fn assert_image(&self, what: &str) {
        assert!(self.image == ticket_image(&self.state), "the image after {what}");
    }

    /// The command has this number, of the engine and by the papers; where it is refused, nothing
    /// changes. The number of the ticket that it gives back.
    #[track_caller]
    pub fn give(&mut self, number: u32, command: TicketCommand) -> u32 {
        let (by_papers, given) = self.state.give(command);
        assert_eq!(by_papers, number, "{command:?} by the papers");
        assert_eq!(give_tickets(&mut self.image, command), (number, given), "{command:?}");
        self.assert_image(&format!("{command:?}"));
        given
    }

    #[track_caller]
    pub fn accept(&mut self, commands: &[TicketCommand]) {
        for &command in commands {
            self.give(0, command);
        }
    }

    #[track_caller]
    pub fn refuse(&mut self, number: u32, commands: &[TicketCommand]) {
        for &command in commands {
            let before = self.image.clone();
            assert_eq!(self.give(number, command), 0, "{command:?} gives a number");
            assert!(self.image == before, "changed by {command:?}");
        }
    }

    /// These persons and no others have the right on the item.
    #[track_caller]
    pub fn assert_holders(&self, on: u32, right: u32, persons: &[u32]) {
        for who in 0..64 {
            let yes = u32::from(persons.contains(&who));
            let question = (who, on, right);
            assert_eq!(self.state.check(question), (0, yes), "{question:?} by the papers");
            assert_eq!(tickets::check(&self.image, who, on, right), (0, yes), "{question:?}");
        }
    }

    /// The live tickets with their places, each by its fields.
    #[track_caller]
    pub fn assert_tickets(&self, tickets: &[(usize, LiveTicket)]) {
        assert!(self
            .state
            .tickets
            .iter()
            .map(|(k, t)| (*k, t.clone()))
            .eq(tickets.iter().cloned()));
        self.assert_image("the commands before");
    }
}
