//! Seeded commands for the ticket unit, biased to the states that are worth reaching.
#![allow(dead_code)]

use std::collections::{BTreeMap, BTreeSet};

use crate::generator::Random;
use crate::model::tickets::{LAST_NUMBER, PLACES};
use crate::model::{LiveTicket, TicketCommand, TicketState};

/// Who, on, right.
pub type Question = (u32, u32, u32);

/// What a list of commands favours.
#[derive(Clone, Copy, Debug)]
pub struct TicketBias {
    pub name: &'static str,
    /// Items in play, from 0.
    pub items: u32,
    /// Rights in play, from 0.
    pub rights: u32,
    /// Shares of the commands: create, generate, pass, remove, delete.
    pub shares: [u32; 5],
    /// Percent of commands whose `by` has the ticket that the command needs, where somebody has it.
    pub able: u32,
    /// Percent of tickets' numbers that are of a live one.
    pub named: u32,
    /// Percent of items that are live ones, where the command needs one.
    pub living: u32,
    /// Percent of numbers that are anything.
    pub wild: u32,
    /// Tickets that live at the start, and how many numbers are left then; 0 and 0 for a fresh unit.
    pub start: (usize, u32),
    /// Commands before the unit starts again.
    pub length: u32,
}

const EVEN: TicketBias = TicketBias {
    name: "few items",
    items: 6,
    rights: 3,
    shares: [20, 30, 30, 12, 8],
    able: 70,
    named: 85,
    living: 85,
    wild: 1,
    start: (0, 0),
    length: 400,
};

pub const TICKET_BIASES: [TicketBias; 9] = [
    EVEN,
    TicketBias { name: "delete and create", items: 5, shares: [30, 20, 25, 5, 20], ..EVEN },
    TicketBias {
        name: "others' tickets",
        rights: 2,
        shares: [15, 25, 20, 30, 10],
        able: 35,
        named: 90,
        ..EVEN
    },
    TicketBias {
        name: "many holders",
        items: 12,
        shares: [15, 10, 60, 4, 11],
        able: 90,
        named: 95,
        ..EVEN
    },
    TicketBias { name: "beyond the limits", items: 64, rights: 8, wild: 20, ..EVEN },
    TicketBias {
        name: "every item",
        items: 64,
        rights: 8,
        shares: [45, 25, 20, 5, 5],
        able: 85,
        ..EVEN
    },
    TicketBias {
        name: "full table",
        items: 24,
        rights: 8,
        shares: [30, 46, 12, 11, 1],
        able: 65,
        living: 60,
        wild: 0,
        start: (1_016, 0),
        length: 120,
        ..EVEN
    },
    TicketBias {
        name: "last numbers",
        items: 10,
        shares: [24, 24, 22, 20, 10],
        able: 80,
        start: (30, 12),
        length: 120,
        ..EVEN
    },
    TicketBias {
        name: "full table and last numbers",
        items: 16,
        shares: [30, 40, 14, 14, 2],
        able: 65,
        living: 60,
        start: (1_020, 4),
        length: 60,
        ..EVEN
    },
];

/// Numbers at and past the limits, and those that look small where a field is cut.
const WILD: [u32; 14] = [0, 7, 8, 62, 63, 64, 65, 127, 128, 255, 256, 1 << 24, 1 << 31, u32::MAX];

pub struct TicketGenerator {
    pub random: Random,
    pub bias: TicketBias,
}

impl TicketGenerator {
    pub fn new(seed: u64, bias: TicketBias) -> Self {
        Self { random: Random::new(seed), bias }
    }

    /// The state that a list begins with: fresh, or with tickets at random places and of numbers in
    /// no order.
    pub fn start(&mut self) -> TicketState {
        let (tickets, left) = self.bias.start;
        if tickets == 0 {
            return TicketState::fresh();
        }
        let next = if left == 0 { 5_000_000 } else { LAST_NUMBER - left };
        self.state(tickets, next, 70)
    }

    /// A state in order, of so many tickets; of every 100 items in play so many live.
    pub fn state(&mut self, tickets: usize, next: u32, alive: u32) -> TicketState {
        let random = &mut self.random;
        let items = self.bias.items;
        let mut live: BTreeSet<u32> = (1..items).filter(|_| random.percent(alive)).collect();
        live.insert(0);
        let all: Vec<u32> = live.iter().copied().collect();
        let (mut places, mut numbers) = (BTreeSet::new(), BTreeSet::new());
        while places.len() < tickets {
            places.insert(random.below(PLACES as u32) as usize);
        }
        // Some of the numbers are the last before the next, and some the same in their low half.
        while numbers.len() < tickets {
            let near = next.saturating_sub(1 + random.below(2 * tickets as u32));
            let alike = (random.below(1 + (next >> 16)) << 16) + 7;
            let any = random.below(next);
            numbers.insert(random.pick(&[near, alike.min(next - 1), any]));
        }
        let mut numbers: Vec<u32> = numbers.into_iter().collect();
        for at in (1..numbers.len()).rev() {
            numbers.swap(at, random.below(at as u32 + 1) as usize);
        }
        let mut made = BTreeMap::new();
        for (place, number) in places.into_iter().zip(numbers) {
            let holders = (0..1 + random.below(3)).map(|_| random.pick(&all)).collect();
            let right = random.below(self.bias.rights + 1) % self.bias.rights;
            let (item, issuer) = (random.pick(&all), random.below(64));
            made.insert(place, LiveTicket { number, item, right, issuer, holders });
        }
        TicketState { live, next, tickets: made }
    }

    fn item(&mut self) -> u32 {
        if self.random.percent(self.bias.wild) {
            return self.random.pick(&WILD);
        }
        self.random.below(self.bias.items)
    }

    fn right(&mut self) -> u32 {
        if self.random.percent(self.bias.wild) {
            return self.random.pick(&WILD);
        }
        self.random.below(self.bias.rights)
    }

    /// Mostly an item that lives.
    fn living(&mut self, state: &TicketState) -> u32 {
        let live: Vec<u32> = state.live.iter().copied().collect();
        if self.random.percent(self.bias.living) {
            return self.random.pick(&live);
        }
        self.item()
    }

    /// The number of a live ticket, of one that has gone, the next, or any.
    fn number(&mut self, state: &TicketState) -> u32 {
        let live: Vec<u32> = state.tickets.values().map(|ticket| ticket.number).collect();
        if !live.is_empty() && self.random.percent(self.bias.named) {
            // Now and then that of the last place in use.
            let last = live[live.len() - 1];
            return if self.random.percent(10) { last } else { self.random.pick(&live) };
        }
        let gone = self.random.below(state.next.max(1));
        let any = self.random.next() as u32;
        self.random.pick(&[gone, gone, state.next, state.next.wrapping_sub(1), any, u32::MAX])
    }

    /// One of the persons that may, or any.
    fn able(&mut self, state: &TicketState, persons: Vec<u32>) -> u32 {
        if !persons.is_empty() && self.random.percent(self.bias.able) {
            return self.random.pick(&persons);
        }
        self.living(state)
    }

    /// The same of the ticket with a number; now and then who issued it.
    fn able_with(&mut self, state: &TicketState, number: u32, persons: Vec<u32>) -> u32 {
        match state.numbered(number) {
            Some(ticket) if self.random.percent(10) => ticket.issuer,
            _ => self.able(state, persons),
        }
    }

    /// The holders of tickets of right 0 on the item.
    fn editors(state: &TicketState, on: u32) -> Vec<u32> {
        let tickets = state.tickets.values().filter(|ticket| ticket.opens(on, 0));
        tickets.flat_map(|ticket| ticket.holders.iter().copied()).collect()
    }

    pub fn command(&mut self, state: &TicketState) -> TicketCommand {
        let total: u32 = self.bias.shares.iter().sum();
        let mut drawn = self.random.below(total);
        let mut kind = 0;
        while drawn >= self.bias.shares[kind] {
            drawn -= self.bias.shares[kind];
            kind += 1;
        }
        self.of_kind(kind, state)
    }

    /// A command of a kind, 0 to 4.
    pub fn of_kind(&mut self, kind: usize, state: &TicketState) -> TicketCommand {
        match kind {
            0 => TicketCommand::Create { by: self.living(state), on: self.item() },
            1 => {
                let on = self.living(state);
                let by = self.able(state, Self::editors(state, on));
                TicketCommand::Generate { by, on, right: self.right() }
            }
            2 => {
                let number = self.number(state);
                let holders = state.numbered(number).map(|ticket| &ticket.holders);
                let holders = holders.into_iter().flatten().copied().collect();
                let by = self.able_with(state, number, holders);
                TicketCommand::Pass { by, to: self.living(state), number }
            }
            3 => {
                let number = self.number(state);
                let item = state.numbered(number).map(|ticket| ticket.item);
                let editors = item.map(|item| Self::editors(state, item)).unwrap_or_default();
                TicketCommand::Remove { by: self.able_with(state, number, editors), number }
            }
            _ => {
                let on = if self.random.percent(20) { self.item() } else { self.living(state) };
                TicketCommand::Delete { by: self.able(state, Self::editors(state, on)), on }
            }
        }
    }

    /// A question, of every other a ticket's item and right.
    pub fn question(&mut self, state: &TicketState) -> Question {
        let tickets: Vec<&LiveTicket> = state.tickets.values().collect();
        if tickets.is_empty() || self.random.percent(50) {
            return (self.item(), self.item(), self.right());
        }
        let ticket = self.random.pick(&tickets);
        let person = if self.random.percent(30) { ticket.issuer } else { self.living(state) };
        (person, ticket.item, ticket.right)
    }
}
