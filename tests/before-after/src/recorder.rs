//! One list of commands, given to the units of the archive that is linked; every answer and image
//! becomes a record.

use std::fmt::Arguments;

use rights::lent;
use rights::lent::chains::Checked;

use crate::damaged;
use crate::engine::{check_chains, give_chains, Flat};
use crate::generator::{Bias, Generator};
use crate::images::Images;
use crate::model::{Cell, Command, Journals, Layout, ListLayout, RowLayout};
use crate::totals::{Key, Totals};
use crate::transcript::{Bytes, Hash, LittleEndian, Transcript};

/// What chain buffers hold before a check, of the right length and of others: no person, and not
/// 255.
pub const PATTERN: [u8; 16] = *b"\xa0\xa1\xa2\xa3\xa4\xa5\xa6\xa7\xa8\xa9\xaa\xab\xac\xad\xae\xaf";

pub struct Recorder<'a> {
    transcript: &'a mut Transcript,
    pub totals: &'a mut Totals,
    seed: u64,
    /// The number of the last command, from 1 on.
    command: u32,
    pub generator: Generator,
    /// What the model says of the commands so far.
    pub journals: Journals,
    images: Images,
}

impl<'a> Recorder<'a> {
    pub fn new(
        transcript: &'a mut Transcript,
        totals: &'a mut Totals,
        seed: u64,
        bias: Bias,
    ) -> Self {
        let (generator, journals) = (Generator::new(seed, bias), Journals::fresh());
        let images = Images::fresh();
        let mut list = Self { transcript, totals, seed, command: 0, generator, journals, images };
        list.record(format_args!("list of the bias '{}'", bias.name));
        list
    }

    pub fn record(&mut self, said: Arguments) {
        self.transcript.record(self.seed, self.command, said);
    }

    /// The generator's next command.
    pub fn next_command(&mut self, step: u32) {
        let command = self.generator.command(&self.journals, step);
        self.give(command);
    }

    /// Whether neither unit nor model gets the command: a sweep, where an archive lacks it.
    pub fn passes_over(&self, command: Command) -> bool {
        self.totals.sweeps.is_none() && matches!(command, Command::Sweep { .. })
    }

    /// A command to the three units: their numbers, the count of a sweep, and their images after it.
    pub fn give(&mut self, command: Command) {
        if self.passes_over(command) {
            return;
        }
        self.command += 1;
        self.totals.commands += 1;
        let Images { lists, rows, grants, loans } = &mut self.images;
        let flat = (ListLayout::give(lists, command), RowLayout::give(rows, command));
        let (number, count) = give_chains(grants, loans, command);
        let flat_images = (Hash::of(lists), Hash::of(rows));
        let chain_images = (Hash::of(grants), Hash::of(loans));
        self.record(format_args!(
            "{command:?}: lists {:?} {}, rows {:?} {}, chains {number} {count} {} {}",
            flat.0, flat_images.0, flat.1, flat_images.1, chain_images.0, chain_images.1
        ));
        let swept = self.journals.give(command).count > 0;
        self.totals.sweeps = self.totals.sweeps.map(|sweeps| sweeps + u64::from(swept));
    }

    /// Every person on the item and right of a question; where that is beyond the limits, the
    /// question and every person on the item and right of a loan that stands.
    pub fn ask(&mut self) {
        let question = self.generator.question(&self.journals.chains);
        let (who, on, right) = question;
        if who < 64 && on < 64 && right < 8 {
            return self.ask_key((on, right));
        }
        let _refused = self.check(question);
        let loan = self.generator.standing(&self.journals.chains);
        self.ask_key((loan.item % 64, loan.right % 8));
    }

    /// The checks of every person on the item and right.
    pub fn ask_key(&mut self, (on, right): (u32, u32)) {
        let key = Key::of(&self.journals.chains, (on, right));
        for who in 0..64 {
            let checked = self.check((who, on, right));
            let own = self.journals.chains.depths(who, on, right).max();
            self.totals.check(&key, who, own, checked);
        }
    }

    /// A question put to the three units.
    fn check(&mut self, question: (u32, u32, u32)) -> Checked {
        self.totals.checks += 1;
        let images = &self.images;
        let list = ListLayout::check(&images.lists, question);
        let row = RowLayout::check(&images.rows, question);
        let mut chain = PATTERN[..8].to_vec();
        let checked = check_chains(&images.grants, &images.loans, question, &mut chain);
        self.record_check(
            format_args!("lists {list:?}, rows {row:?}, "),
            question,
            checked,
            &chain,
        );
        checked
    }

    /// The chain unit's answer to a question, after what goes before it.
    pub fn record_check(
        &mut self,
        before: Arguments,
        question: (u32, u32, u32),
        checked: Checked,
        chain: &[u8],
    ) {
        let Checked { number, depth, persons } = checked;
        let yes = if persons == 0 { "no" } else { "yes" };
        self.totals.buffer(number != 0 && PATTERN.starts_with(chain));
        self.record(format_args!(
            "check {question:?}: {before}chains {number} {yes} {depth} {persons} {}",
            Bytes(chain)
        ));
    }

    /// Subjects, in-order and conversions of the images as they stand.
    pub fn whole_images(&mut self) {
        let inspected = lent::chains::inspect(&self.images.grants, &self.images.loans);
        self.record(format_args!("chains inspected: {inspected}"));
        let (lists, rows) = (self.images.lists.clone(), self.images.rows.clone());
        self.reads::<ListLayout>(&lists, ListLayout::NAME);
        self.reads::<RowLayout>(&rows, RowLayout::NAME);
    }

    /// In-order and subjects of one image, and its conversion into a buffer that held something
    /// else.
    pub fn reads<U: Flat>(&mut self, image: &[U::Cell], what: &str)
    where
        <U::Other as Layout>::Cell: LittleEndian,
    {
        let mut other = vec![<U::Other as Layout>::Cell::default(); U::Other::CELLS];
        other.iter_mut().for_each(|cell| cell.flip(5));
        let (inspected, subjects) = (U::inspect(image), U::subjects(image));
        let number = U::convert(image, &mut other);
        let other = Hash::of(&other);
        self.record(format_args!(
            "{what} inspected: {inspected}, subjects {subjects:x?}, converted {number} {other}"
        ));
    }

    pub fn damage(&mut self) {
        damaged::every_image(self);
    }
}
