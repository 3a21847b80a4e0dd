//! The ticket unit against the model, command by command: the number, the ticket that generate gives
//! back, every word of the image, and checks.

mod engine;
mod generator;
mod model;
mod ticket_generator;
mod ticket_situations;

use std::collections::BTreeSet;

use engine::give_tickets;
use generator::{seed, Trace};
use model::{ticket_image, TicketState};
use rights::lent::tickets;
use rights::Ticket;
use ticket_generator::{Question, TicketBias, TicketGenerator, TICKET_BIASES};
use ticket_situations::TicketSituations;

/// How often each thing came up.
#[derive(Clone, Debug, Default)]
struct Counts {
    commands: u64,
    checks: u64,
    yes: u64,
    situations: TicketSituations,
}

impl Counts {
    fn add(&mut self, other: &Counts) {
        self.commands += other.commands;
        self.checks += other.checks;
        self.yes += other.yes;
        self.situations.add(&other.situations);
    }
}

/// One list of commands.
struct Run {
    generator: TicketGenerator,
    state: TicketState,
    image: Vec<u64>,
    /// Every number that a ticket had.
    given: BTreeSet<u32>,
    counts: Counts,
}

impl Run {
    fn new(seed: u64, bias: TicketBias) -> Self {
        let mut generator = TicketGenerator::new(seed, bias);
        let state = generator.start();
        let mut image = ticket_image(&state);
        if state == TicketState::fresh() {
            image.fill(seed);
            assert_eq!(tickets::fresh(&mut image), 0);
        }
        assert!(image == ticket_image(&state));
        assert_eq!(tickets::inspect(&image), 0);
        let given = state.tickets.values().map(|ticket| ticket.number).collect();
        Self { generator, state, image, given, counts: Counts::default() }
    }

    fn command(&mut self) {
        let command = self.generator.command(&self.state);
        self.counts.situations.command(&self.state, command);
        let answer = self.state.give(command);
        assert_eq!(give_tickets(&mut self.image, command), answer, "{command:?}");
        assert!(self.image == ticket_image(&self.state), "the image after {command:?}");
        if let (0, number @ 1..) = answer {
            assert!(self.given.insert(number), "{number} again");
        }
        self.counts.commands += 1;
    }

    fn check(&mut self, question: Question) {
        let (who, on, right) = question;
        let answer = self.state.check(question);
        assert_eq!(tickets::check(&self.image, who, on, right), answer, "{question:?}");
        self.counts.checks += 1;
        self.counts.yes += u64::from(answer.1);
    }

    /// A few questions.
    fn sample(&mut self) {
        for _ in 0..3 {
            let question = self.generator.question(&self.state);
            self.check(question);
            self.counts.situations.answer(&self.state, question);
        }
    }

    /// Every check there is, of the image and of its records; neither changes.
    fn everything(&mut self, by_image: bool) {
        let mut records = vec![Ticket::VACANT; 1024];
        assert_eq!(tickets::records(&self.image, &mut records), 0);
        let before = records.clone();
        let every_yes = self.state.every_yes();
        for key in 0..64 * 64 * 8 {
            let (who, on, right) = (key / 512, key / 8 % 64, key % 8);
            let answer = (0, u32::from(every_yes.contains(&(who, on, right))));
            let asked = tickets::check_records(&records, who, on, right);
            assert_eq!(asked, answer, "records, {who}, {on}, {right}");
            if by_image {
                assert_eq!(
                    tickets::check(&self.image, who, on, right),
                    answer,
                    "{who}, {on}, {right}"
                );
            }
            self.counts.checks += 1;
            self.counts.yes += u64::from(answer.1);
        }
        assert!(records == before);
        self.assert_whole();
    }

    /// The image is in order and as it was.
    fn assert_whole(&self) {
        assert_eq!(tickets::inspect(&self.image), 0);
        assert!(self.image == ticket_image(&self.state), "changed by a check or an inspection");
    }
}

/// One list of commands of the bias; every check there is at its end, if asked for.
fn list(seed: u64, bias: TicketBias, everything: bool) -> Counts {
    let mut run = Run::new(seed, bias);
    let mut trace = Trace { seed, bias: bias.name, step: 0 };
    for step in 0..bias.length {
        trace.step = step;
        run.command();
        run.sample();
        if step % 16 == 15 {
            run.assert_whole();
        }
    }
    if everything {
        run.everything(true);
    }
    run.counts
}

/// Lists of each bias until each has at least `commands` commands.
fn lists_of_every_bias(commands: u64, everything_each: u64) -> Counts {
    let mut total = Counts::default();
    println!("tickets, differential, seed {}", seed());
    for (number, bias) in (0..).zip(TICKET_BIASES) {
        let (mut counts, mut round) = (Counts::default(), 0);
        while counts.commands < commands {
            let list_seed = seed() + 1_000_000 * number + round;
            counts.add(&list(list_seed, bias, round % everything_each == 0));
            round += 1;
        }
        println!("{}: {round} lists, {} commands", bias.name, counts.commands);
        total.add(&counts);
    }
    println!("{} commands, {} checks, {} yes", total.commands, total.checks, total.yes);
    total.situations.print();
    total
}

#[test]
fn short() {
    lists_of_every_bias(3_000, 16).situations.assert_broad();
}

/// Every check there is after each command of short lists, by records, and after the last by the image
/// too.
#[test]
fn every_check_after_each_command() {
    for (number, bias) in (0..).zip(TICKET_BIASES) {
        let list_seed = seed() + 7_000_000 * (number + 1);
        let mut run = Run::new(list_seed, bias);
        let mut trace = Trace { seed: list_seed, bias: bias.name, step: 0 };
        for step in 0..24 {
            trace.step = step;
            run.command();
            run.everything(step == 23);
        }
    }
}

/// A million commands.
#[test]
#[ignore = "takes minutes"]
fn long() {
    let counts = lists_of_every_bias(112_000, 50);
    counts.situations.assert_broad();
    assert!(counts.commands >= 1_000_000);
}
