//! The images of lists, rows and chain unit, given the same commands.
#![allow(dead_code)]

use rights::lent;

use crate::engine::{give_chains, Flat};
use crate::model::{
    image_of, loans_image, Command, GrantLayout, Journal, Journals, Layout, ListLayout, Numbers,
    RowLayout,
};

/// The images of the three units.
#[derive(Clone, PartialEq, Eq)]
pub struct Images {
    pub lists: Vec<u64>,
    pub rows: Vec<u8>,
    pub grants: Vec<u8>,
    pub loans: Vec<u32>,
}

impl Images {
    /// Fresh units, made in buffers that held something else.
    pub fn fresh() -> Self {
        let mut images = Self {
            lists: vec![u64::MAX; ListLayout::CELLS],
            rows: vec![0xa5; RowLayout::CELLS],
            grants: vec![0x5a; GrantLayout::CELLS],
            loans: vec![7; 1025],
        };
        assert_eq!(ListLayout::fresh(&mut images.lists), 0);
        assert_eq!(RowLayout::fresh(&mut images.rows), 0);
        assert_eq!(lent::chains::fresh(&mut images.grants, &mut images.loans), 0);
        images
    }

    /// The images of units that follow one journal.
    pub fn of(journal: &Journal) -> Self {
        Self::of_each(journal, journal)
    }

    /// The images of units of which each follows its own journal.
    pub fn of_both(journals: &Journals) -> Self {
        Self::of_each(&journals.flat, &journals.chains)
    }

    fn of_each(flat: &Journal, chains: &Journal) -> Self {
        Self {
            lists: image_of::<ListLayout>(flat),
            rows: image_of::<RowLayout>(flat),
            grants: image_of::<GrantLayout>(chains),
            loans: loans_image(chains),
        }
    }

    /// Every element of every image.
    #[track_caller]
    pub fn compare(&self, expected: &Self) {
        assert!(self.lists == expected.lists, "lists differ");
        assert!(self.rows == expected.rows, "rows differ");
        assert!(self.grants == expected.grants, "grants differ");
        assert!(self.loans == expected.loans, "loans differ");
    }

    /// The same command, which counts nothing, to each unit that has it; each answers with the number.
    #[track_caller]
    pub fn give(&mut self, command: Command, number: u32) {
        let flat = Some(number).filter(|_| command.is_flat());
        self.give_each(command, Numbers::counting_nothing(number, flat));
    }

    /// The same command to each unit that has it; each answers with its own number.
    #[track_caller]
    pub fn give_each(&mut self, command: Command, numbers: Numbers) {
        assert_eq!(ListLayout::give(&mut self.lists, command), numbers.flat, "lists, {command:?}");
        assert_eq!(RowLayout::give(&mut self.rows, command), numbers.flat, "rows, {command:?}");
        let chains = give_chains(&mut self.grants, &mut self.loans, command);
        assert_eq!(chains, (numbers.chains, numbers.count), "chains, {command:?}");
    }
}
