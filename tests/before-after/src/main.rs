//! Writes down what the archive that is linked answers to seeded commands and checks, one record a
//! line, so that the records of two archives can be compared. The model, never the archive, decides
//! what is asked: the same seed asks the same of every archive. Of each check it also says the depth
//! and the number of persons, and the program fails where the archive says another; which of the
//! shortest best chains is written is open, and the records alone have it. With RIGHTS_WITHOUT_SWEEP
//! sweeps are passed over, for an archive that lacks them.

mod damaged;
mod dense;
mod endings;
mod recorder;
mod totals;
mod transcript;

// What the Rust tests have: the model, the seeded commands, the calls, the damages.
#[path = "../../../rust/tests/damage/mod.rs"]
mod damage;
#[path = "../../../rust/tests/engine/mod.rs"]
mod engine;
#[path = "../../../rust/tests/generator/mod.rs"]
mod generator;
#[path = "../../../rust/tests/images/mod.rs"]
mod images;
#[path = "../../../rust/tests/model/mod.rs"]
mod model;

use std::path::Path;

use dense::Dense;
use generator::{seed, Bias, BIASES, KEY};
use recorder::Recorder;
use totals::Totals;
use transcript::Transcript;

/// How many lists of each kind there are.
const LISTS: u64 = 2;

/// The loans of one item and right in a list with many.
const LOANS: [u32; 3] = [64, 256, 1024];

/// A list of commands of the bias; the units are asked after every second command, and damaged
/// after every 20th.
fn biased_list(recorder: &mut Recorder, bias: Bias) {
    for step in 0..bias.length {
        recorder.next_command(step);
        if step % 2 == 1 {
            recorder.ask();
        }
        if step % 16 == 15 {
            recorder.whole_images();
        }
        if step % 20 == 19 {
            recorder.damage();
        }
    }
}

/// A list that makes many loans of one item and right, asks in shift after shift, and goes on with
/// commands at random.
fn dense_list(recorder: &mut Recorder, seed: u64, loans: u32) {
    (0..dense::BIAS.items - 1).for_each(|step| recorder.next_command(step));
    let mut dense = Dense::new(seed, loans);
    for (step, command) in (0..).zip(dense.opening()) {
        recorder.give(command);
        if step % 2 == 1 {
            recorder.ask_key(KEY);
        }
    }
    for shift in dense.shifts() {
        recorder.give(shift);
        recorder.ask_key(KEY);
        recorder.damage();
    }
    for step in dense::BIAS.items..dense::BIAS.items + dense::BIAS.length {
        recorder.next_command(step);
        recorder.ask_key(KEY);
    }
}

fn every_list(file: &Path) -> Totals {
    let mut totals = Totals::default();
    totals.sweeps = std::env::var_os("RIGHTS_WITHOUT_SWEEP").is_none().then_some(0);
    let mut transcript = Transcript::create(file);
    for round in 0..LISTS {
        for (number, bias) in (0..).zip(BIASES) {
            let list = seed() + 1_000_000 * number + round;
            biased_list(&mut Recorder::new(&mut transcript, &mut totals, list, bias), bias);
        }
        for (number, loans) in (BIASES.len() as u64..).zip(LOANS) {
            let list = seed() + 1_000_000 * number + round;
            let recorder = &mut Recorder::new(&mut transcript, &mut totals, list, dense::BIAS);
            dense_list(recorder, list, loans);
        }
    }
    totals.records = transcript.end();
    totals
}

fn main() {
    let file = std::env::args_os().nth(1).expect("the file for the records");
    let totals = every_list(Path::new(&file));
    totals.assert_fewest();
    totals.assert_broad();
    println!("version: {}", rights::version());
    totals.print();
}
