//! How often a run came upon what tickets are about.

use std::collections::BTreeMap;

use crate::model::tickets::{LAST_NUMBER, PLACES};
use crate::model::{LiveTicket, TicketCommand, TicketState};
use crate::ticket_generator::Question;

/// A command, the state before it, and the numbers that apply.
struct Moment<'a> {
    state: &'a TicketState,
    command: TicketCommand,
    /// Every number that applies, the one given first.
    applying: &'a [u32],
}

impl Moment<'_> {
    fn number(&self) -> u32 {
        self.applying.first().copied().unwrap_or(0)
    }

    /// The first number is given where the second applies too.
    fn before(&self, name: &str, first: u32, second: u32) -> bool {
        self.is(name, first) && self.applying[1..].contains(&second)
    }

    fn is(&self, name: &str, number: u32) -> bool {
        self.command.name() == name && self.number() == number
    }

    /// Of a pass or a remove with this answer, the live ticket that it names, if one.
    fn named(&self, name: &str, number: u32) -> Option<&LiveTicket> {
        match self.command {
            TicketCommand::Pass { number: named, .. }
            | TicketCommand::Remove { number: named, .. } => {
                self.state.numbered(named).filter(|_| self.is(name, number))
            }
            _ => None,
        }
    }

    fn by(&self) -> u32 {
        self.command.by()
    }

    fn holds(&self, ticket: &LiveTicket) -> bool {
        ticket.holders.contains(&self.by())
    }

    fn edits(&self, item: u32) -> bool {
        self.state.holds(self.by(), item, 0)
    }

    /// A pass with this answer, of a live ticket.
    fn pass(&self, number: u32, so: impl Fn(&LiveTicket) -> bool) -> bool {
        self.named("pass", number).is_some_and(so)
    }

    fn remove(&self, number: u32, so: impl Fn(&LiveTicket) -> bool) -> bool {
        self.named("remove", number).is_some_and(so)
    }

    /// An accepted delete, and a ticket of which this is so.
    fn delete(&self, so: impl Fn(&LiveTicket, u32) -> bool) -> bool {
        match self.command {
            TicketCommand::Delete { on, .. } if self.number() == 0 => {
                self.state.tickets.values().any(|ticket| so(ticket, on))
            }
            _ => false,
        }
    }

    /// An accepted create or generate, and the place that its ticket takes.
    fn issued_at(&self) -> Option<usize> {
        let issues = self.is("create", 0) || self.is("generate", 0);
        self.state.first_free().filter(|_| issues)
    }

    /// The ticket that a person who is not its issuer generates by.
    fn by_passed_ticket(&self) -> bool {
        let TicketCommand::Generate { by, on, .. } = self.command else {
            return false;
        };
        let own = |ticket: &LiveTicket| ticket.opens(on, 0) && ticket.issuer == by;
        self.number() == 0 && !self.state.tickets.values().any(own)
    }
}

/// A situation: what it is called, and which command is one.
type Situation = (&'static str, fn(&Moment) -> bool);

const SITUATIONS: [Situation; 45] = [
    ("create: 4 where 6 applies too", |m| m.before("create", 4, 6)),
    ("create: 4 where 15 applies too", |m| m.before("create", 4, 15)),
    ("create: 4 where 16 applies too", |m| m.before("create", 4, 16)),
    ("create: 6 where 15 applies too", |m| m.before("create", 6, 15)),
    ("create: 6 where 16 applies too", |m| m.before("create", 6, 16)),
    ("create: 15 where 16 applies too", |m| m.before("create", 15, 16)),
    ("generate: 4 where 5 applies too", |m| m.before("generate", 4, 5)),
    ("generate: 5 where 15 applies too", |m| m.before("generate", 5, 15)),
    ("generate: 17 where 15 applies too", |m| m.before("generate", 17, 15)),
    ("generate: 17 where 16 applies too", |m| m.before("generate", 17, 16)),
    ("generate: 15 where 16 applies too", |m| m.before("generate", 15, 16)),
    ("pass: 4 where 5 applies too", |m| m.before("pass", 4, 5)),
    ("pass: 4 where 17 applies too", |m| m.before("pass", 4, 17)),
    ("pass: 5 where 17 applies too", |m| m.before("pass", 5, 17)),
    ("pass: 5 where by holds the ticket", |m| m.pass(5, |t| m.holds(t))),
    ("remove: 4 where 17 applies too", |m| m.before("remove", 4, 17)),
    ("delete: 4 where 5 applies too", |m| m.before("delete", 4, 5)),
    ("delete: 4 where 7 applies too", |m| m.before("delete", 4, 7)),
    ("delete: 7 where 17 applies too", |m| m.before("delete", 7, 17)),
    ("delete: 7 where 17 does not apply", |m| m.is("delete", 7) && !m.applying.contains(&17)),
    ("generate by a ticket that was passed on", |m| m.by_passed_ticket()),
    ("pass to one who holds it", |m| {
        let TicketCommand::Pass { to, .. } = m.command else { return false };
        m.pass(0, |t| t.holders.contains(&to))
    }),
    ("pass by a holder who did not issue it", |m| m.pass(0, |t| t.issuer != m.by())),
    ("pass of a right 0 ticket", |m| m.pass(0, |t| t.right == 0)),
    ("17 to the issuer, who lacks it", |m| m.pass(17, |t| t.issuer == m.by())),
    ("17 to a holder of another for the same", |m| {
        m.pass(17, |t| m.state.holds(m.by(), t.item, t.right))
    }),
    ("17 to pass by one with right 0 there", |m| m.pass(17, |t| m.edits(t.item))),
    ("17 to pass of the next number", |m| {
        let next = m.state.next;
        matches!(m.command, TicketCommand::Pass { number, .. } if number == next)
            && m.number() == 17
    }),
    ("17 to remove of a number that has gone", |m| match m.command {
        TicketCommand::Remove { number, .. } => {
            m.number() == 17 && number < m.state.next && m.state.numbered(number).is_none()
        }
        _ => false,
    }),
    ("17 to remove by its holder", |m| m.remove(17, |t| m.holds(t))),
    ("17 to remove by its issuer", |m| m.remove(17, |t| t.issuer == m.by())),
    ("remove by one who does not hold it", |m| m.remove(0, |t| !m.holds(t))),
    ("remove from several holders", |m| m.remove(0, |t| t.holders.len() > 2)),
    ("remove by the very ticket that is removed", |m| {
        m.remove(0, |t| {
            t.right == 0 && m.holds(t) && {
                let same = |o: &&LiveTicket| o.opens(t.item, 0) && o.holders.contains(&m.by());
                m.state.tickets.values().filter(same).count() == 1
            }
        })
    }),
    ("delete that ends a ticket of others for it", |m| {
        m.delete(|t, on| t.item == on && !t.holders.contains(&on))
    }),
    ("delete that takes a holder of several", |m| {
        m.delete(|t, on| t.item != on && t.holders.len() > 1 && t.holders.contains(&on))
    }),
    ("delete that takes the last holder", |m| {
        m.delete(|t, on| t.item != on && t.holders.len() == 1 && t.holders.contains(&on))
    }),
    ("delete that leaves a dead issuer", |m| {
        m.delete(|t, on| t.item != on && t.issuer == on && t.holders.iter().any(|&p| p != on))
    }),
    ("delete by the item itself", |m| {
        matches!(m.command, TicketCommand::Delete { by, on } if by == on) && m.number() == 0
    }),
    ("create of an item that issued a live ticket", |m| {
        let TicketCommand::Create { on, .. } = m.command else { return false };
        m.number() == 0 && m.state.tickets.values().any(|ticket| ticket.issuer == on)
    }),
    ("a place between others is taken", |m| {
        let last = m.state.tickets.keys().next_back();
        m.issued_at().is_some_and(|place| last.is_some_and(|&last| place < last))
    }),
    ("the last place is taken", |m| m.issued_at() == Some(PLACES - 1)),
    ("the last free place is taken", |m| {
        m.issued_at().is_some() && m.state.tickets.len() == PLACES - 1
    }),
    ("the last number is given", |m| m.issued_at().is_some() && m.state.next == LAST_NUMBER - 1),
    ("a number is given beside greater gaps", |m| {
        let numbers = m.state.tickets.values().map(|ticket| ticket.number);
        m.issued_at().is_some() && numbers.max().is_some_and(|most| most + 1 < m.state.next)
    }),
];

/// What an answer owes to tickets: what it is called, and which question is one.
type Owed = (&'static str, fn(&TicketState, Question) -> bool);

const ANSWERS: [Owed; 6] = [
    ("yes to one who did not issue it", |state, (who, on, right)| {
        state.holds(who, on, right) && !state.issued(who, on, right)
    }),
    ("yes to the issuer", |state, (who, on, right)| {
        state.holds(who, on, right) && state.issued(who, on, right)
    }),
    ("no to the issuer, who lives", |state, (who, on, right)| {
        state.lives(who) && !state.holds(who, on, right) && state.issued(who, on, right)
    }),
    ("no to a dead issuer", |state, (who, on, right)| {
        !state.lives(who) && state.issued(who, on, right)
    }),
    ("yes by the second of two tickets", |state, (who, on, right)| {
        let mut tickets = state.tickets.values().filter(|ticket| ticket.opens(on, right));
        tickets.next().is_some_and(|first| !first.holders.contains(&who))
            && state.holds(who, on, right)
    }),
    ("no to one with right 0 there", |state, (who, on, right)| {
        state.holds(who, on, 0) && right < 8 && !state.holds(who, on, right)
    }),
];

/// The numbers that each command must have met.
const NUMBERS: [(&str, &[u32]); 5] = [
    ("create", &[0, 3, 4, 6, 15, 16]),
    ("generate", &[0, 3, 4, 5, 17, 15, 16]),
    ("pass", &[0, 3, 4, 5, 17]),
    ("remove", &[0, 3, 4, 17]),
    ("delete", &[0, 3, 4, 5, 7, 17]),
];

#[derive(Clone, Debug, Default)]
pub struct TicketSituations {
    counts: BTreeMap<&'static str, u64>,
    numbers: BTreeMap<(&'static str, u32), u64>,
}

impl TicketSituations {
    pub fn command(&mut self, state: &TicketState, command: TicketCommand) {
        let applying = state.applying(command);
        let moment = Moment { state, command, applying: &applying };
        *self.numbers.entry((command.name(), moment.number())).or_default() += 1;
        for (name, is) in SITUATIONS {
            *self.counts.entry(name).or_default() += u64::from(is(&moment));
        }
    }

    pub fn answer(&mut self, state: &TicketState, question: Question) {
        for (name, is) in ANSWERS {
            *self.counts.entry(name).or_default() += u64::from(is(state, question));
        }
    }

    pub fn add(&mut self, other: &Self) {
        for (name, count) in &other.counts {
            *self.counts.entry(name).or_default() += count;
        }
        for (key, count) in &other.numbers {
            *self.numbers.entry(*key).or_default() += count;
        }
    }

    pub fn print(&self) {
        println!("numbers: {:?}", self.numbers);
        self.counts.iter().for_each(|(name, count)| println!("{name}: {count}"));
    }

    /// Every situation came up, and every number of each command and no other.
    pub fn assert_broad(&self) {
        let names = SITUATIONS.iter().map(|s| s.0).chain(ANSWERS.iter().map(|a| a.0));
        for name in names {
            assert!(self.counts.get(name).is_some_and(|&count| count > 0), "never: {name}");
        }
        let due: Vec<(&str, u32)> =
            NUMBERS.iter().flat_map(|(name, all)| all.iter().map(|&n| (*name, n))).collect();
        for key in &due {
            assert!(self.numbers.contains_key(key), "never: {key:?}");
        }
        assert!(self.numbers.keys().all(|key| due.contains(key)), "{:?}", self.numbers);
    }
}
