//! Every call on damaged images of the state that a list has come to.

use rights::lent;

use crate::damage::{grant_damages, wrong_length, LOAN_DAMAGES};
use crate::engine::{check_chains, give_chains, Flat};
use crate::generator::{FLAT_KINDS, KINDS};
use crate::model::{image_of, loans_image, GrantLayout, Journal, Layout, ListLayout, RowLayout};
use crate::recorder::{Recorder, PATTERN};
use crate::transcript::{Hash, LittleEndian};

/// A damaged image of lists, of rows, of the grants and of the loans of a chain unit.
pub fn every_image(recorder: &mut Recorder) {
    flat::<ListLayout>(recorder);
    flat::<RowLayout>(recorder);
    let journal = recorder.journals.chains.clone();
    let random = &mut recorder.generator.random;
    let (name, apply) = random.pick(&grant_damages::<GrantLayout>());
    let (mut grants, loans) = (image_of::<GrantLayout>(&journal), loans_image(&journal));
    apply(random, &journal, &mut grants);
    chains(recorder, &format!("grants with '{name}'"), (&grants, &loans), &journal);
    let random = &mut recorder.generator.random;
    let (name, apply) = random.pick(&LOAN_DAMAGES);
    let (grants, mut loans) = (image_of::<GrantLayout>(&journal), loans_image(&journal));
    apply(random, &journal, &mut loans);
    chains(recorder, &format!("loans with '{name}'"), (&grants, &loans), &journal);
}

fn flat<U: Flat>(recorder: &mut Recorder)
where
    U::Cell: LittleEndian,
    <U::Other as Layout>::Cell: LittleEndian,
{
    let journal = recorder.journals.flat.clone();
    let random = &mut recorder.generator.random;
    let (name, apply) = random.pick(&grant_damages::<U>());
    let mut image = image_of::<U>(&journal);
    apply(random, &journal, &mut image);
    recorder.totals.damaged += 1;
    let what = format!("{} with '{name}'", U::NAME);
    for kind in 0..FLAT_KINDS {
        let command = recorder.generator.of_kind(kind, &journal);
        let mut given = image.clone();
        let number = U::give(&mut given, command);
        recorder.record(format_args!("{what}, {command:?}: {number:?} {}", Hash::of(&given)));
    }
    let question = recorder.generator.question(&journal);
    let answer = U::check(&image, question);
    recorder.record(format_args!("{what}, check {question:?}: {answer:?}"));
    recorder.reads::<U>(&image, &what);
    let number = U::fresh(&mut image);
    recorder.record(format_args!("{what}, fresh: {number} {}", Hash::of(&image)));
}

fn chains(recorder: &mut Recorder, what: &str, images: (&[u8], &[u32]), journal: &Journal) {
    recorder.totals.damaged += 1;
    for kind in 0..KINDS {
        let command = recorder.generator.of_kind(kind, journal);
        if recorder.passes_over(command) {
            continue;
        }
        let (mut grants, mut loans) = (images.0.to_vec(), images.1.to_vec());
        let returned = give_chains(&mut grants, &mut loans, command);
        let (grants, loans) = (Hash::of(&grants), Hash::of(&loans));
        recorder.record(format_args!("{what}, {command:?}: {returned:?} {grants} {loans}"));
    }
    checks(recorder, what, images, journal);
    let inspected = lent::chains::inspect(images.0, images.1);
    let (mut grants, mut loans) = (images.0.to_vec(), images.1.to_vec());
    let number = lent::chains::fresh(&mut grants, &mut loans);
    let (grants, loans) = (Hash::of(&grants), Hash::of(&loans));
    recorder
        .record(format_args!("{what}, inspected: {inspected}, fresh {number} {grants} {loans}"));
}

/// Every person on the item and right of a question, and the question with a buffer that has a
/// wrong length.
fn checks(
    recorder: &mut Recorder,
    what: &str,
    (grants, loans): (&[u8], &[u32]),
    journal: &Journal,
) {
    let (who, on, right) = recorder.generator.question(journal);
    let length = wrong_length(&mut recorder.generator.random, 8);
    let every = (0..64).map(|who| ((who, on, right), 8));
    for (question, length) in every.chain([((who, on, right), 8), ((who, on, right), length)]) {
        let mut chain = PATTERN[..length].to_vec();
        let checked = check_chains(grants, loans, question, &mut chain);
        recorder.totals.checks += 1;
        recorder.record_check(format_args!("{what}, "), question, checked, &chain);
    }
}
