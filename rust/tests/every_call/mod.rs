//! Every call of the C interface on one image, with what the model expects: the number, every byte
//! that was lent, and the values beside the number.

use crate::damage::wrong_length;
use crate::engine::{check_chains, give_chains, Flat};
use crate::generator::{Generator, FLAT_KINDS, KINDS};
use crate::guarded::{Guarded, Side};
use crate::judge::{flat_answer, judge_chain};
use crate::model::{
    chain_journal, flat_journal, image_of, loans_image, Cell, Command, GrantLayout, Journal, Layout,
};
use rights::lent;
use rights::lent::chains::Checked;

/// The journal that the lent images say, or the number that refuses them.
type State = Result<Journal, u32>;

/// Who, on, right.
type Question = (u32, u32, u32);

fn number_of(state: &State) -> u32 {
    state.as_ref().err().copied().unwrap_or(0)
}

/// The number of a command with its count, and the journal after it, none where nothing may change.
fn after(state: &State, command: Command) -> ((u32, u32), Option<Journal>) {
    match state {
        Err(number) => ((*number, 0), None),
        Ok(journal) => {
            let mut journal = journal.clone();
            let (number, count) = journal.give(command);
            ((number, count), Some(journal).filter(|_| number == 0))
        }
    }
}

fn flat_state<L: Layout>(image: &[L::Cell]) -> State {
    if image.len() != L::CELLS {
        return Err(1);
    }
    flat_journal::<L>(image).ok_or(2)
}

fn chain_state(grants: &[u8], loans: &[u32]) -> State {
    if grants.len() != GrantLayout::CELLS || loans.len() != 1025 {
        return Err(1);
    }
    chain_journal(grants, loans).ok_or(2)
}

/// The image of a unit without depth, lent at a guard page for each call.
pub struct FlatImage<'a, U: Flat> {
    pub cells: &'a [U::Cell],
    pub side: Side,
}

impl<U: Flat> FlatImage<'_, U> {
    /// Every call; the number that the image is refused with.
    pub fn try_all(&self, generator: &mut Generator, base: &Journal) -> u32 {
        let state = flat_state::<U>(self.cells);
        for kind in 0..FLAT_KINDS {
            self.command(&state, generator.of_kind(kind, base));
        }
        self.reads(&state, generator.question(base));
        self.conversion(&state, U::Other::CELLS);
        self.conversion(&state, wrong_length(&mut generator.random, U::Other::CELLS));
        self.fresh();
        number_of(&state)
    }

    /// The conversion into a buffer of this length.
    pub fn try_target(&self, length: usize) {
        self.conversion(&flat_state::<U>(self.cells), length);
    }

    fn lend(&self) -> Guarded<U::Cell> {
        Guarded::new(self.cells, self.side)
    }

    fn command(&self, state: &State, command: Command) {
        let ((number, _), journal) = after(state, command);
        let mut lent = self.lend();
        assert_eq!(U::give(lent.slice(), command), Some(number), "{}, {command:?}", U::NAME);
        let changed = journal.map(|journal| image_of::<U>(&journal));
        lent.assert_holds(changed.as_deref().unwrap_or(self.cells), U::NAME);
    }

    /// The inspection, the subjects and a check.
    fn reads(&self, state: &State, question: Question) {
        let number = number_of(state);
        let mut lent = self.lend();
        assert_eq!(U::inspect(lent.slice()), number, "inspect, {}", U::NAME);
        let subjects = state.as_ref().map_or(0, Journal::subjects);
        assert_eq!(U::subjects(lent.slice()), (number, subjects), "subjects, {}", U::NAME);
        let answer = match state {
            Err(number) => (*number, 0),
            Ok(journal) => flat_answer(journal, question),
        };
        assert_eq!(U::check(lent.slice(), question), answer, "check, {}", U::NAME);
        lent.assert_holds(self.cells, U::NAME);
    }

    /// The conversion into a buffer of some length that held something else.
    fn conversion(&self, state: &State, length: usize) {
        let wrong = length != U::Other::CELLS;
        let number = if wrong { 1 } else { number_of(state) };
        let mut held = vec![<U::Other as Layout>::Cell::default(); length];
        held.iter_mut().for_each(|cell| cell.flip(5));
        let (mut from, mut into) = (self.lend(), Guarded::new(&held, self.side));
        assert_eq!(U::convert(from.slice(), into.slice()), number, "conversion of {}", U::NAME);
        from.assert_holds(self.cells, U::NAME);
        match state {
            Ok(journal) if !wrong => {
                into.assert_holds(&image_of::<U::Other>(journal), "a conversion");
            }
            _ => into.assert_holds(&held, "a refused conversion"),
        }
    }

    fn fresh(&self) {
        let mut lent = self.lend();
        let number = U::fresh(lent.slice());
        if self.cells.len() == U::CELLS {
            assert_eq!(number, 0, "fresh {}", U::NAME);
            lent.assert_holds(&image_of::<U>(&Journal::fresh()), "fresh");
        } else {
            assert_eq!(number, 1, "fresh {}", U::NAME);
            lent.assert_holds(self.cells, "a refused fresh");
        }
    }
}

/// The images of a chain unit, lent at guard pages for each call.
pub struct ChainImages<'a> {
    pub grants: &'a [u8],
    pub loans: &'a [u32],
    pub side: Side,
}

/// Both images while they are lent.
struct LentImages {
    grants: Guarded<u8>,
    loans: Guarded<u32>,
}

impl LentImages {
    #[track_caller]
    fn assert_holds(&mut self, grants: &[u8], loans: &[u32], what: &str) {
        self.grants.assert_holds(grants, what);
        self.loans.assert_holds(loans, what);
    }

    #[track_caller]
    fn assert_say(&mut self, journal: &Journal, what: &str) {
        self.assert_holds(&image_of::<GrantLayout>(journal), &loans_image(journal), what);
    }
}

impl ChainImages<'_> {
    /// Every call; the number that the images are refused with.
    pub fn try_all(&self, generator: &mut Generator, base: &Journal) -> u32 {
        let state = chain_state(self.grants, self.loans);
        for kind in 0..KINDS {
            self.command(&state, generator.of_kind(kind, base));
        }
        let question = generator.question(base);
        self.check(&state, question);
        let length = wrong_length(&mut generator.random, 8);
        self.check_refused(question, &vec![9; length], 1);
        self.fresh();
        self.inspect(number_of(&state));
        number_of(&state)
    }

    /// The check with a chain buffer of this length, which is wrong.
    pub fn try_chain_buffer(&self, length: usize) {
        self.check_refused((0, 0, 0), &vec![9; length], 1);
    }

    fn lend(&self) -> LentImages {
        LentImages {
            grants: Guarded::new(self.grants, self.side),
            loans: Guarded::new(self.loans, self.side),
        }
    }

    fn inspect(&self, number: u32) {
        let mut lent = self.lend();
        let given = lent::chains::inspect(lent.grants.slice(), lent.loans.slice());
        assert_eq!(given, number, "inspect, chains");
        lent.assert_holds(self.grants, self.loans, "inspect");
    }

    fn command(&self, state: &State, command: Command) {
        let (returned, journal) = after(state, command);
        let mut lent = self.lend();
        let given = give_chains(lent.grants.slice(), lent.loans.slice(), command);
        assert_eq!(given, returned, "chains, {command:?}");
        match journal {
            Some(journal) => lent.assert_say(&journal, "a command"),
            None => lent.assert_holds(self.grants, self.loans, "a refused command"),
        }
    }

    fn check(&self, state: &State, question: Question) {
        let before = [7; 8];
        let journal = match state {
            Err(number) => return self.check_refused(question, &before, *number),
            Ok(journal) => journal,
        };
        let (mut lent, mut chain) = (self.lend(), Guarded::new(&before, self.side));
        let (grants, loans) = (lent.grants.slice(), lent.loans.slice());
        let checked = check_chains(grants, loans, question, chain.slice());
        let written: [u8; 8] = (&*chain.slice()).try_into().expect("8 bytes");
        let (who, on, right) = question;
        let known = who < 64 && on < 64 && right < 8;
        let best = if known { journal.best_chains(on, right)[who as usize] } else { None };
        judge_chain(journal, question, best, checked, before, written);
        lent.assert_holds(self.grants, self.loans, "a check");
        chain.assert_holds(&written, "a check");
    }

    /// A check that is refused for its buffers: no byte changes, and depth and persons are 0.
    fn check_refused(&self, question: Question, held: &[u8], number: u32) {
        let (mut lent, mut chain) = (self.lend(), Guarded::new(held, self.side));
        let (grants, loans) = (lent.grants.slice(), lent.loans.slice());
        let checked = check_chains(grants, loans, question, chain.slice());
        assert_eq!(checked, Checked { number, depth: 0, persons: 0 }, "check, chains");
        lent.assert_holds(self.grants, self.loans, "a refused check");
        chain.assert_holds(held, "a refused check");
    }

    fn fresh(&self) {
        let mut lent = self.lend();
        let number = lent::chains::fresh(lent.grants.slice(), lent.loans.slice());
        if self.grants.len() == GrantLayout::CELLS && self.loans.len() == 1025 {
            assert_eq!(number, 0, "fresh chains");
            lent.assert_say(&Journal::fresh(), "fresh");
        } else {
            assert_eq!(number, 1, "fresh chains");
            lent.assert_holds(self.grants, self.loans, "a refused fresh");
        }
    }
}
