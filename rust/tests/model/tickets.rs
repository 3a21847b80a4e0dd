//! The ticket unit of request K6 over maps and sets: which items live, the next number, and at which
//! place which ticket lives. What stands in quotation marks is the text of the request.

use std::collections::{BTreeMap, BTreeSet};

/// "Up to 1,024 live tickets".
pub const PLACES: usize = 1024;

/// "16 when the next number is 4294967295".
pub const LAST_NUMBER: u32 = 4_294_967_295;

/// A command of the ticket unit with the numbers that arrive.
#[derive(Clone, Copy, Debug, PartialEq, Eq)]
pub enum TicketCommand {
    Create { by: u32, on: u32 },
    Generate { by: u32, on: u32, right: u32 },
    Pass { by: u32, to: u32, number: u32 },
    Remove { by: u32, number: u32 },
    Delete { by: u32, on: u32 },
}

impl TicketCommand {
    pub fn by(self) -> u32 {
        match self {
            Self::Create { by, .. }
            | Self::Generate { by, .. }
            | Self::Pass { by, .. }
            | Self::Remove { by, .. }
            | Self::Delete { by, .. } => by,
        }
    }

    /// An item above 63 or a right above 7. A ticket's number has no limit.
    fn out_of_range(self) -> bool {
        let (items, right) = match self {
            Self::Create { by, on } | Self::Delete { by, on } => (vec![by, on], 0),
            Self::Generate { by, on, right } => (vec![by, on], right),
            Self::Pass { by, to, .. } => (vec![by, to], 0),
            Self::Remove { by, .. } => (vec![by], 0),
        };
        items.iter().any(|&item| item > 63) || right > 7
    }

    /// The name, for counts.
    pub fn name(self) -> &'static str {
        match self {
            Self::Create { .. } => "create",
            Self::Generate { .. } => "generate",
            Self::Pass { .. } => "pass",
            Self::Remove { .. } => "remove",
            Self::Delete { .. } => "delete",
        }
    }
}

/// "each a record of number, item, right, issuer and the set of its holders"; a live one.
#[derive(Clone, Debug, PartialEq, Eq)]
pub struct LiveTicket {
    pub number: u32,
    pub item: u32,
    pub right: u32,
    pub issuer: u32,
    pub holders: BTreeSet<u32>,
}

impl LiveTicket {
    pub fn opens(&self, item: u32, right: u32) -> bool {
        (self.item, self.right) == (item, right)
    }
}

#[derive(Clone, Debug, PartialEq, Eq)]
pub struct TicketState {
    pub live: BTreeSet<u32>,
    pub next: u32,
    /// The live tickets by their places, 0 to 1,023.
    pub tickets: BTreeMap<usize, LiveTicket>,
}

impl TicketState {
    /// "fresh, item 0 lives, the next is 1 and ticket 0 is 0's for right 0 on item 0".
    pub fn fresh() -> Self {
        let holders = BTreeSet::from([0]);
        let first = LiveTicket { number: 0, item: 0, right: 0, issuer: 0, holders };
        Self { live: BTreeSet::from([0]), next: 1, tickets: BTreeMap::from([(0, first)]) }
    }

    /// Takes a command: its number, and on 0 the change. Beside it what "generate gives back", the
    /// number of the new ticket; "0 beside a refusal", and of any other command.
    pub fn give(&mut self, command: TicketCommand) -> (u32, u32) {
        let (number, next) = (self.answer(command), self.next);
        if number == 0 {
            self.change(command);
        }
        let gives = number == 0 && matches!(command, TicketCommand::Generate { .. });
        (number, if gives { next } else { 0 })
    }

    /// The first number that applies, from 3 on.
    pub fn answer(&self, command: TicketCommand) -> u32 {
        self.applying(command).first().copied().unwrap_or(0)
    }

    /// Every number that applies, from 3 on, in the order of the command's row. Beyond the limits
    /// only 3 is told.
    pub fn applying(&self, command: TicketCommand) -> Vec<u32> {
        if command.out_of_range() {
            return vec![3];
        }
        let by_dead = (4, !self.lives(command.by()));
        let (full, spent) = ((15, self.full()), (16, self.next == LAST_NUMBER));
        let row = match command {
            TicketCommand::Create { on, .. } => vec![by_dead, (6, self.lives(on)), full, spent],
            TicketCommand::Generate { by, on, .. } => {
                vec![by_dead, (5, !self.lives(on)), (17, !self.holds(by, on, 0)), full, spent]
            }
            TicketCommand::Pass { by, to, number } => {
                vec![by_dead, (5, !self.lives(to)), (17, !self.holds_number(by, number))]
            }
            TicketCommand::Remove { by, number } => {
                let may = self.numbered(number).is_some_and(|t| self.holds(by, t.item, 0));
                vec![by_dead, (17, !may)]
            }
            TicketCommand::Delete { by, on } => {
                let lacks = (17, !self.holds(by, on, 0));
                vec![by_dead, (5, !self.lives(on)), (7, on == 0), lacks]
            }
        };
        row.into_iter().filter(|(_, applies)| *applies).map(|(number, _)| number).collect()
    }

    fn change(&mut self, command: TicketCommand) {
        match command {
            // "create issues a right 0 ticket to its maker".
            TicketCommand::Create { by, on } => {
                self.live.insert(on);
                self.issue(by, on, 0);
            }
            // "leaves the new ticket with the issuer".
            TicketCommand::Generate { by, on, right } => self.issue(by, on, right),
            // "makes `to` a holder too".
            TicketCommand::Pass { to, number, .. } => {
                let ticket = self.tickets.values_mut().find(|t| t.number == number);
                ticket.expect("it lives").holders.insert(to);
            }
            // "takes it from everyone".
            TicketCommand::Remove { number, .. } => self.tickets.retain(|_, t| t.number != number),
            TicketCommand::Delete { on, .. } => self.delete(on),
        }
    }

    /// "Numbers rise from 0 and are never used again"; "a new one takes the first of these".
    fn issue(&mut self, by: u32, item: u32, right: u32) {
        let place = self.first_free().expect("a place");
        let holders = BTreeSet::from([by]);
        let ticket = LiveTicket { number: self.next, item, right, issuer: by, holders };
        self.tickets.insert(place, ticket);
        self.next += 1;
    }

    /// "ends the item's tickets and takes the item out of every holder set. A ticket with no holder
    /// left ends".
    pub fn delete(&mut self, on: u32) {
        self.live.remove(&on);
        self.tickets.retain(|_, ticket| ticket.item != on);
        for ticket in self.tickets.values_mut() {
            ticket.holders.remove(&on);
        }
        self.tickets.retain(|_, ticket| !ticket.holders.is_empty());
    }

    pub fn first_free(&self) -> Option<usize> {
        (0..PLACES).find(|place| !self.tickets.contains_key(place))
    }

    pub fn lives(&self, item: u32) -> bool {
        self.live.contains(&item)
    }

    /// "15 when 1,024 tickets live".
    pub fn full(&self) -> bool {
        self.tickets.len() == PLACES
    }

    pub fn numbered(&self, number: u32) -> Option<&LiveTicket> {
        self.tickets.values().find(|ticket| ticket.number == number)
    }

    pub fn holds_number(&self, person: u32, number: u32) -> bool {
        self.numbered(number).is_some_and(|ticket| ticket.holders.contains(&person))
    }

    /// "the person holds a live ticket for that item and right".
    pub fn holds(&self, person: u32, item: u32, right: u32) -> bool {
        self.tickets.values().any(|t| t.opens(item, right) && t.holders.contains(&person))
    }

    /// "the person issued a live ticket for that item and right".
    pub fn issued(&self, person: u32, item: u32, right: u32) -> bool {
        self.tickets.values().any(|t| t.opens(item, right) && t.issuer == person)
    }

    /// The check: the number, and 1 for yes.
    pub fn check(&self, (who, on, right): (u32, u32, u32)) -> (u32, u32) {
        if who > 63 || on > 63 || right > 7 {
            return (3, 0);
        }
        (0, u32::from(self.holds(who, on, right)))
    }

    /// Every who, on and right that the check says yes to.
    pub fn every_yes(&self) -> BTreeSet<(u32, u32, u32)> {
        let tickets = self.tickets.values();
        tickets.flat_map(|t| t.holders.iter().map(|&who| (who, t.item, t.right))).collect()
    }

    /// The items and the holders of its tickets live, and item 0 does.
    fn names_live(&self) -> bool {
        let held = |ticket: &LiveTicket| ticket.holders.iter().all(|&person| self.lives(person));
        self.lives(0) && self.tickets.values().all(|t| self.lives(t.item) && held(t))
    }

    /// What the papers say of its numbers: those of the tickets differ and "lie below the next",
    /// "rights are at most 7, issuers at most 63".
    fn numbers_fit(&self) -> bool {
        let numbers: BTreeSet<u32> = self.tickets.values().map(|ticket| ticket.number).collect();
        numbers.len() == self.tickets.len()
            && numbers.iter().all(|&number| number < self.next)
            && self.tickets.values().all(|ticket| ticket.right <= 7 && ticket.issuer <= 63)
    }

    /// The state itself, where all that "in order" says of it is so.
    pub fn if_in_order(self) -> Option<Self> {
        Some(self).filter(|state| state.names_live() && state.numbers_fit())
    }
}
