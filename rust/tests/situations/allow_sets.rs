//! What allowsets are about: many members, all, one; members that have the grant already or that
//! are dead; the empty set; and which number comes first.

use super::{Moment, Situation};
use crate::model::{Command, Journal};

/// An allowset, and the journal before it.
struct AllowSet<'a> {
    journal: &'a Journal,
    by: u32,
    members: Vec<u32>,
    on: u32,
    right: u32,
    depth: u32,
}

impl AllowSet<'_> {
    fn has(&self, item: u32) -> bool {
        self.members.contains(&item)
    }

    /// The dead members.
    fn dead(&self) -> usize {
        self.members.iter().filter(|&&item| !self.journal.lives(item)).count()
    }

    fn by_lives(&self) -> bool {
        self.journal.lives(self.by)
    }

    fn on_lives(&self) -> bool {
        self.journal.lives(self.on)
    }

    fn edits(&self) -> bool {
        self.journal.granted(self.by, self.on, 0)
    }

    /// The members that have the right on the item at the depth.
    fn granted(&self) -> usize {
        self.members.iter().filter(|&&item| self.depths(item).contains(&self.depth)).count()
    }

    fn depths(&self, member: u32) -> Vec<u32> {
        self.journal.depths(member, self.on, self.right).collect()
    }

    /// A member has the right on the item at other depths alone.
    fn deepens(&self) -> bool {
        let otherwise = |depths: Vec<u32>| !depths.is_empty() && !depths.contains(&self.depth);
        self.members.iter().any(|&item| otherwise(self.depths(item)))
    }
}

impl Moment<'_> {
    /// The allowset that had this number.
    fn allow_set(&self, number: u32) -> Option<AllowSet<'_>> {
        let Command::AllowSet { by, set, on, right, depth } = self.command else {
            return None;
        };
        let members = (0..64).filter(|&item| set >> item & 1 == 1).collect();
        let allow_set = AllowSet { journal: self.journal, by, members, on, right, depth };
        Some(allow_set).filter(|_| self.number == number)
    }
}

pub const SITUATIONS: [Situation; 21] = [
    ("allowset of 40 members or more", |m| m.allow_set(0).is_some_and(|s| s.members.len() >= 40)),
    ("allowset of all 64", |m| m.allow_set(0).is_some_and(|s| s.members.len() == 64)),
    ("allowset of one member", |m| m.allow_set(0).is_some_and(|s| s.members.len() == 1)),
    ("allowset with members 0 and 63", |m| m.allow_set(0).is_some_and(|s| s.has(0) && s.has(63))),
    ("allowset with by among the members", |m| m.allow_set(0).is_some_and(|s| s.has(s.by))),
    ("allowset without by", |m| m.allow_set(0).is_some_and(|s| !s.has(s.by))),
    ("allowset of right 0 that makes editors", |m| {
        m.allow_set(0)
            .is_some_and(|s| s.right == 0 && s.granted() < s.members.len() && !s.deepens())
    }),
    ("the same allowset again, all of it standing", |m| {
        m.again && m.allow_set(0).is_some_and(|s| s.granted() == s.members.len())
    }),
    ("allowset that stands for some members", |m| {
        m.allow_set(0).is_some_and(|s| (1..s.members.len()).contains(&s.granted()))
    }),
    ("allowset beside other depths", |m| m.allow_set(0).is_some_and(|s| s.deepens())),
    ("5 for one dead member of many", |m| {
        m.allow_set(5).is_some_and(|s| s.dead() == 1 && s.members.len() >= 16 && s.on_lives())
    }),
    ("5 for member 63 alone", |m| {
        m.allow_set(5).is_some_and(|s| s.dead() == 1 && s.has(63) && !s.journal.lives(63))
    }),
    ("5 for on, every member alive", |m| m.allow_set(5).is_some_and(|s| s.dead() == 0)),
    ("5 where 8 applies too", |m| m.allow_set(5).is_some_and(|s| s.on_lives() && !s.edits())),
    ("4 where 5 applies too", |m| m.allow_set(4).is_some_and(|s| s.dead() > 0)),
    ("8 for many members", |m| m.allow_set(8).is_some_and(|s| s.members.len() >= 16)),
    ("14 alone", |m| m.allow_set(14).is_some_and(|s| s.edits())),
    ("14 where 4 applies too", |m| m.allow_set(14).is_some_and(|s| !s.by_lives())),
    ("14 where 5 applies too", |m| m.allow_set(14).is_some_and(|s| s.by_lives() && !s.on_lives())),
    ("14 where 8 applies too", |m| {
        m.allow_set(14).is_some_and(|s| s.by_lives() && s.on_lives() && !s.edits())
    }),
    ("3 for the empty set", |m| m.allow_set(3).is_some_and(|s| s.members.is_empty())),
];
