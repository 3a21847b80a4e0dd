//! Every call on damaged images: the number, and what each lent byte holds after. Every buffer lies
//! at a guard page, in turn before it and after it.

mod damage;
mod engine;
mod every_call;
mod generator;
mod guarded;
mod images;
mod judge;
mod model;

use std::collections::BTreeMap;

use damage::{grant_damages, resize, LOAN_DAMAGES};
use engine::Flat;
use every_call::{ChainImages, FlatImage};
use generator::{seed, Bias, Generator, Random, Trace, BIASES};
use guarded::{Side, SIDES};
use images::Images;
use model::{image_of, loans_image, Cell, GrantLayout, Journals, Layout, ListLayout, RowLayout};

/// Damaged images by unit and damage, and of them those with numbers 0, 1 and 2.
#[derive(Default)]
struct Counts {
    images: u64,
    numbers: BTreeMap<(&'static str, &'static str), [u64; 3]>,
}

impl Counts {
    fn add(&mut self, unit: &'static str, damage: &'static str, number: u32) {
        self.images += 1;
        self.numbers.entry((unit, damage)).or_default()[number as usize] += 1;
    }

    fn print(&self) {
        println!("damaged images: {}, seed {}", self.images, seed());
        for ((unit, damage), [in_order, wrong_length, not_in_order]) in &self.numbers {
            println!("{unit}, {damage}: 0 {in_order}, 1 {wrong_length}, 2 {not_in_order}");
        }
    }

    /// Every damage that can leave an image out of order did, a wrong length is refused with 1
    /// and what adds a live name alone leaves it in order. A shift, and the last shift of a loan,
    /// can be changed either way.
    fn assert_broad(&self) {
        for ((unit, damage), [in_order, wrong_length, not_in_order]) in &self.numbers {
            let reached = match *damage {
                "length" => *wrong_length > 0 && in_order + not_in_order == 0,
                "live grant added" | "live loan added" | "last shift of the greatest loan" => {
                    *in_order > 0 && *not_in_order == 0
                }
                "shift" | "last shift" => *in_order > 0 && *not_in_order > 0,
                _ => *not_in_order > 0,
            };
            assert!(reached, "{unit}, {damage}");
        }
    }
}

/// A state, the commands and questions that are tried on images of it, and where those lie.
struct Trial {
    generator: Generator,
    journals: Journals,
    side: Side,
}

impl Trial {
    fn new(seed: u64, bias: Bias) -> Self {
        let (generator, journals) = (Generator::new(seed, bias), Journals::fresh());
        Self { generator, journals, side: Side::Front }
    }

    /// From now on the guard pages are on the other side.
    fn turned(&mut self) -> &mut Self {
        self.side = if self.side == Side::Front { Side::Back } else { Side::Front };
        self
    }

    /// The next command of the list, given to the journals.
    fn command(&mut self, step: u32) {
        let command = self.generator.command(&self.journals, step);
        self.journals.give(command);
    }

    /// Every call on one image; the number that it is refused with.
    fn flat<U: Flat>(&mut self, cells: &[U::Cell]) -> u32 {
        let image = FlatImage::<U> { cells, side: self.side };
        image.try_all(&mut self.generator, &self.journals.flat)
    }

    fn chains(&mut self, grants: &[u8], loans: &[u32]) -> u32 {
        let images = ChainImages { grants, loans, side: self.side };
        images.try_all(&mut self.generator, &self.journals.chains)
    }

    /// Damaged images of the state.
    fn damage(&mut self, counts: &mut Counts) {
        self.turned().damage_flat::<ListLayout>(counts);
        self.damage_flat::<RowLayout>(counts);
        self.damage_grants(counts);
        self.damage_loans(counts);
        if self.generator.random.percent(10) {
            self.root_unnamed(counts);
        }
    }

    /// Images in which nothing is wrong but that item 0 is dead: no grant and no loan names it.
    fn root_unnamed(&mut self, counts: &mut Counts) {
        let damage = "root item dead and not named";
        let Journals { mut flat, mut chains } = self.journals.clone();
        flat.delete(0);
        chains.delete(0);
        counts.add("lists", damage, self.flat::<ListLayout>(&image_of::<ListLayout>(&flat)));
        counts.add("rows", damage, self.flat::<RowLayout>(&image_of::<RowLayout>(&flat)));
        let (grants, loans) = (image_of::<GrantLayout>(&chains), loans_image(&chains));
        counts.add("grants of chains", damage, self.chains(&grants, &loans));
    }

    fn damage_flat<U: Flat>(&mut self, counts: &mut Counts) {
        let (name, apply) = self.generator.random.pick(&grant_damages::<U>());
        let mut image = image_of::<U>(&self.journals.flat);
        apply(&mut self.generator.random, &self.journals.flat, &mut image);
        counts.add(U::NAME, name, self.flat::<U>(&image));
    }

    fn damage_grants(&mut self, counts: &mut Counts) {
        let (name, apply) = self.generator.random.pick(&grant_damages::<GrantLayout>());
        let journal = &self.journals.chains;
        let (mut grants, loans) = (image_of::<GrantLayout>(journal), loans_image(journal));
        apply(&mut self.generator.random, journal, &mut grants);
        counts.add("grants of chains", name, self.chains(&grants, &loans));
    }

    fn damage_loans(&mut self, counts: &mut Counts) {
        let (name, apply) = self.generator.random.pick(&LOAN_DAMAGES);
        let journal = &self.journals.chains;
        let (grants, mut loans) = (image_of::<GrantLayout>(journal), loans_image(journal));
        apply(&mut self.generator.random, journal, &mut loans);
        counts.add("loans of chains", name, self.chains(&grants, &loans));
    }
}

/// Damaged images of the states that one list of commands reaches.
fn damage_list(seed: u64, bias: Bias, counts: &mut Counts) {
    let mut trial = Trial::new(seed, bias);
    let mut trace = Trace { seed, bias: bias.name, step: 0 };
    for step in 0..bias.length {
        trace.step = step;
        trial.command(step);
        if step % 10 == 9 {
            trial.damage(counts);
        }
    }
}

/// Damaged images of every bias in turn until there are enough.
fn damage_images(images: u64) -> Counts {
    let mut counts = Counts::default();
    for (round, bias) in (0..).zip(BIASES.iter().cycle()) {
        if counts.images >= images {
            break;
        }
        damage_list(seed() + round, *bias, &mut counts);
    }
    counts.print();
    counts.assert_broad();
    counts
}

/// A state with grants and loans and with dead items.
fn some_state() -> Trial {
    let bias = BIASES[1];
    let mut trial = Trial::new(seed(), bias);
    (0..bias.length / 4).for_each(|step| trial.command(step));
    trial
}

/// Calls back with the image once for each of its bits, flipped.
fn each_bit<C: Cell>(image: &[C], mut call: impl FnMut(&[C])) {
    let mut image = image.to_vec();
    for n in 0..image.len() * C::WIDTH as usize {
        let (cell, bit) = (n / C::WIDTH as usize, (n % C::WIDTH as usize) as u32);
        image[cell].flip(bit);
        call(&image);
        image[cell].flip(bit);
    }
}

#[test]
fn short() {
    damage_images(8_000);
}

fn resized<C: Cell>(random: &mut Random, image: &[C]) -> Vec<C> {
    let mut image = image.to_vec();
    let right = image.len();
    resize(random, &mut image, right);
    image
}

/// Wrong lengths of the chain unit's images, alone, together, and beside an image out of order.
#[test]
fn lengths() {
    let mut trial = some_state();
    let Images { grants, loans, .. } = Images::of_both(&trial.journals);
    let (no_grants, no_order) = (vec![0; GrantLayout::CELLS], vec![2; 1025]);
    for _ in 0..40 {
        let random = &mut trial.turned().generator.random;
        let (wrong_grants, wrong_loans) = (resized(random, &grants), resized(random, &loans));
        let pairs = [
            (&wrong_grants, &loans),
            (&wrong_grants, &no_order),
            (&wrong_grants, &wrong_loans),
            (&grants, &wrong_loans),
            (&no_grants, &wrong_loans),
        ];
        for (grants, loans) in pairs {
            assert_eq!(trial.chains(grants, loans), 1);
        }
    }
}

/// The image in lengths around the right one, 0 and 1 among them; what is added is 0.
fn lengths_of<C: Cell>(image: &[C]) -> Vec<Vec<C>> {
    let right = image.len();
    let lengths = [0, 1, right - 1, right, right + 1, 2 * right];
    let resized = |length| {
        let mut image = image.to_vec();
        image.resize(length, C::default());
        image
    };
    lengths.map(resized).into()
}

/// Every call on every length, at a guard page on either side.
#[test]
fn lengths_on_both_sides() {
    let mut trial = some_state();
    let Images { lists, rows, grants, loans } = Images::of_both(&trial.journals);
    let (lists, rows) = (lengths_of(&lists), lengths_of(&rows));
    let (grants, loans) = (lengths_of(&grants), lengths_of(&loans));
    for side in SIDES {
        trial.side = side;
        for cells in &lists {
            assert_eq!(trial.flat::<ListLayout>(cells), u32::from(cells.len() != 513));
        }
        for cells in &rows {
            assert_eq!(trial.flat::<RowLayout>(cells), u32::from(cells.len() != 4104));
        }
        for (grants, loans) in grants.iter().flat_map(|g| loans.iter().map(move |l| (g, l))) {
            let wrong = (grants.len(), loans.len()) != (32_776, 1025);
            assert_eq!(trial.chains(grants, loans), u32::from(wrong));
        }
    }
}

/// Right images beside another buffer, of the conversions and of the check, in every length.
#[test]
fn other_lengths_on_both_sides() {
    let Images { lists, rows, grants, loans } = Images::of_both(&some_state().journals);
    for side in SIDES {
        for target in lengths_of(&rows) {
            FlatImage::<ListLayout> { cells: &lists, side }.try_target(target.len());
        }
        for target in lengths_of(&lists) {
            FlatImage::<RowLayout> { cells: &rows, side }.try_target(target.len());
        }
        for length in [0, 1, 7, 9, 16] {
            ChainImages { grants: &grants, loans: &loans, side }.try_chain_buffer(length);
        }
    }
}

/// A million damaged images.
#[test]
#[ignore = "takes minutes"]
fn long() {
    let counts = damage_images(1_000_000);
    assert!(counts.images >= 1_000_000);
}

/// Every single bit of every image of one state.
#[test]
#[ignore = "takes minutes"]
fn long_every_bit() {
    let mut trial = some_state();
    let mut numbers = [0; 3];
    let mut count = |number: u32| numbers[number as usize] += 1;
    let Images { lists, rows, grants, loans } = Images::of_both(&trial.journals);
    each_bit(&lists, |image| count(trial.turned().flat::<ListLayout>(image)));
    each_bit(&rows, |image| count(trial.turned().flat::<RowLayout>(image)));
    each_bit(&grants, |image| count(trial.turned().chains(image, &loans)));
    each_bit(&loans, |image| count(trial.turned().chains(&grants, image)));
    println!("single bits: numbers {numbers:?}");
    assert_eq!(numbers[1], 0);
    assert!(numbers[0] > 0 && numbers[2] > 0);
}
