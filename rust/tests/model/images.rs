//! Images by the paper's formulas, and the journal that an image says.

use std::collections::BTreeSet;
use std::fmt::Debug;

use super::journal::{Grant, Journal, Loan};

/// One element of an image.
pub trait Cell: Copy + Debug + Default + PartialEq + Eq {
    const WIDTH: u32;
    fn has(self, bit: u32) -> bool;
    fn flip(&mut self, bit: u32);
}

macro_rules! cell {
    ($($kind:ty),*) => {
        $(impl Cell for $kind {
            const WIDTH: u32 = <$kind>::BITS;

            fn has(self, bit: u32) -> bool {
                self >> bit & 1 == 1
            }

            fn flip(&mut self, bit: u32) {
                *self ^= 1 << bit;
            }
        })*
    };
}

cell!(u8, u32, u64);

/// A bit of an image.
#[derive(Clone, Copy, Debug, PartialEq, Eq)]
pub struct Place {
    pub cell: usize,
    pub bit: u32,
}

impl Place {
    fn new(cell: u32, bit: u32) -> Self {
        Self { cell: cell as usize, bit }
    }

    pub fn has<C: Cell>(self, image: &[C]) -> bool {
        image[self.cell].has(self.bit)
    }

    pub fn set<C: Cell>(self, image: &mut [C]) {
        if !self.has(image) {
            image[self.cell].flip(self.bit);
        }
    }
}

/// Where an image has the live items and the grants.
pub trait Layout {
    type Cell: Cell;
    const CELLS: usize;
    /// Depths told apart: 1 where depth is dropped.
    const DEPTHS: u32;
    fn roll(item: u32) -> Place;
    fn place(grant: &Grant) -> Place;
}

pub struct ListLayout;
pub struct RowLayout;
pub struct GrantLayout;

impl Layout for ListLayout {
    type Cell = u64;
    const CELLS: usize = 513;
    const DEPTHS: u32 = 1;

    fn roll(item: u32) -> Place {
        Place::new(0, item)
    }

    fn place(grant: &Grant) -> Place {
        Place::new(1 + 8 * grant.item + grant.right, grant.person)
    }
}

/// The roll of an image of bytes: bytes 0 to 7, least first.
fn byte_roll(item: u32) -> Place {
    Place::new(item / 8, item % 8)
}

impl Layout for RowLayout {
    type Cell = u8;
    const CELLS: usize = 4104;
    const DEPTHS: u32 = 1;

    fn roll(item: u32) -> Place {
        byte_roll(item)
    }

    fn place(grant: &Grant) -> Place {
        Place::new(8 + 64 * grant.person + grant.item, grant.right)
    }
}

impl Layout for GrantLayout {
    type Cell = u8;
    const CELLS: usize = 32776;
    const DEPTHS: u32 = 8;

    fn roll(item: u32) -> Place {
        byte_roll(item)
    }

    fn place(grant: &Grant) -> Place {
        Place::new(8 + 512 * grant.item + 64 * grant.right + grant.person, grant.depth)
    }
}

/// The image of the journal's live items and grants.
pub fn image_of<L: Layout>(journal: &Journal) -> Vec<L::Cell> {
    let mut image = vec![L::Cell::default(); L::CELLS];
    for &item in &journal.live {
        L::roll(item).set(&mut image);
    }
    for grant in &journal.grants {
        L::place(grant).set(&mut image);
    }
    image
}

/// The number of a loan in the image.
pub fn word_of(loan: &Loan) -> u32 {
    (loan.last << 24)
        + (loan.lender << 18)
        + (loan.item << 12)
        + (loan.right << 9)
        + (loan.borrower << 3)
        + loan.depth
}

/// The image of the journal's loans and its shift.
pub fn loans_image(journal: &Journal) -> Vec<u32> {
    let mut words: Vec<u32> = journal.loans.iter().map(word_of).collect();
    words.sort();
    let mut image = vec![Head { shift: journal.shift, count: words.len() }.word()];
    image.extend(words);
    image.resize(1025, 0);
    image
}

/// The journal that the image of a unit without loans says, if it is in order.
pub fn flat_journal<L: Layout>(image: &[L::Cell]) -> Option<Journal> {
    Some(read::<L>(image)).filter(Journal::names_live)
}

/// The journal that the images of a chain unit say, if they are in order.
pub fn chain_journal(grants: &[u8], loans: &[u32]) -> Option<Journal> {
    if !loans_in_order(loans) {
        return None;
    }
    let mut journal = read::<GrantLayout>(grants);
    journal.loans = loans_read(loans);
    journal.shift = head_of(loans).shift;
    Some(journal).filter(Journal::names_live)
}

/// The live items and grants that an image says, each bit asked for by its formula.
fn read<L: Layout>(image: &[L::Cell]) -> Journal {
    let live: BTreeSet<u32> = (0..64).filter(|&item| L::roll(item).has(image)).collect();
    let mut grants = BTreeSet::new();
    for key in 0..64 * 8 {
        let (item, right) = (key / 8, key % 8);
        let every = (0..64 * L::DEPTHS).map(|n| (n / L::DEPTHS, n % L::DEPTHS));
        let all = every.map(|(person, depth)| Grant { item, right, person, depth });
        grants.extend(all.filter(|grant| L::place(grant).has(image)));
    }
    Journal { live, grants, loans: BTreeSet::new(), shift: 0 }
}

/// The two numbers of word 0 of a loans image: "shift·2^16 + count".
#[derive(Clone, Copy, Debug, PartialEq, Eq)]
pub struct Head {
    pub shift: u32,
    pub count: usize,
}

impl Head {
    pub fn word(self) -> u32 {
        self.shift * 65_536 + self.count as u32
    }
}

pub fn head_of(image: &[u32]) -> Head {
    Head { shift: image[0] / 65_536, count: (image[0] % 65_536) as usize }
}

/// What the papers say of a loans image but for dead names.
pub fn loans_in_order(image: &[u32]) -> bool {
    let Head { shift, count } = head_of(image);
    if shift > 255 || count > 1024 {
        return false;
    }
    let (used, rest) = image[1..].split_at(count);
    used.windows(2).all(|pair| pair[0] < pair[1])
        && used.iter().all(|&word| loan_of(word).right != 0)
        && rest.iter().all(|&word| word == 0)
}

/// The loans in use of an image in order.
pub fn loans_read(image: &[u32]) -> BTreeSet<Loan> {
    image[1..=head_of(image).count].iter().map(|&word| loan_of(word)).collect()
}

pub fn loan_of(word: u32) -> Loan {
    Loan {
        last: word >> 24,
        lender: word >> 18 & 63,
        item: word >> 12 & 63,
        right: word >> 9 & 7,
        borrower: word >> 3 & 63,
        depth: word & 7,
    }
}
