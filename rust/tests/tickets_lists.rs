//! Tickets beside lists: "With both fresh, for every list of creates and depth 0 allows, each allow
//! done as generate and, if accepted, pass of that ticket by the same person, and as long as 15 and
//! 16 don't occur, the tickets say yes exactly where the lists do or the person issued a live ticket
//! for that item and right."

mod generator;
mod model;

use generator::{seed, Random};
use rights::lent::{lists, tickets};
use rights::Ticket;

/// Both units, and how often each thing came up.
struct Both {
    lists: Vec<u64>,
    tickets: Vec<u64>,
    counts: Counts,
}

#[derive(Debug, Default)]
struct Counts {
    creates: u64,
    allows: u64,
    /// Allows that lists refuse, whose generate was accepted: `to` is dead.
    only_generated: u64,
    /// Allows by one whose edit right was allowed, not made.
    by_allowed: u64,
    /// Yes of the tickets alone: an issuer's.
    issuers: u64,
    /// Yes of both, to one who issued none.
    holders: u64,
}

impl Both {
    fn fresh() -> Self {
        let (mut words, mut image) = (vec![9; 513], vec![9; 2050]);
        assert_eq!((lists::fresh(&mut words), tickets::fresh(&mut image)), (0, 0));
        Self { lists: words, tickets: image, counts: Counts::default() }
    }

    /// Both answer a create alike.
    fn create(&mut self, by: u32, on: u32) {
        let number = lists::create(&mut self.lists, by, on);
        assert_eq!(tickets::create(&mut self.tickets, by, on), number, "create {by} {on}");
        self.counts.creates += u64::from(number == 0);
    }

    /// An allow, and of the tickets generate and pass. The pass is accepted where the allow is: with
    /// neither deletes nor removes whoever has edit by the lists has a ticket of right 0.
    fn allow(&mut self, by: u32, to: u32, on: u32, right: u32) {
        let number = lists::allow(&mut self.lists, by, to, on, right, 0);
        let (answer, ticket) = tickets::generate(&mut self.tickets, by, on, right);
        assert!(![15, 16].contains(&answer) && (answer == 0 || ticket == 0));
        let passed = answer == 0 && tickets::pass(&mut self.tickets, by, to, ticket) == 0;
        assert_eq!(passed, number == 0, "allow {by} {to} {on} {right}");
        self.counts.allows += u64::from(number == 0);
        self.counts.only_generated += u64::from(number != 0 && answer == 0);
        self.counts.by_allowed += u64::from(number == 0 && by != 0);
    }

    fn records(&self) -> Vec<Ticket> {
        let mut records = vec![Ticket::VACANT; 1024];
        assert_eq!(tickets::records(&self.tickets, &mut records), 0);
        records
    }

    fn live(&self) -> usize {
        self.records().iter().filter(|ticket| ticket.holders != 0).count()
    }

    /// Every person, item and right.
    fn compare(&mut self, by_image: bool) {
        let records = self.records();
        let mut issued = vec![false; 64 * 64 * 8];
        for ticket in records.iter().filter(|ticket| ticket.holders != 0) {
            let (item, right) = (usize::from(ticket.item), usize::from(ticket.right));
            issued[512 * usize::from(ticket.issuer) + 8 * item + right] = true;
        }
        for (key, issued) in (0..).zip(issued) {
            let (who, on, right) = (key / 512, key / 8 % 64, key % 8);
            let (number, listed) = lists::check(&self.lists, who, on, right);
            let due = (0, u32::from(listed == 1 || issued));
            assert_eq!(number, 0);
            let asked = tickets::check_records(&records, who, on, right);
            assert_eq!(asked, due, "{who} {on} {right}: lists {listed}, issued {issued}");
            if by_image {
                assert_eq!(
                    tickets::check(&self.tickets, who, on, right),
                    due,
                    "{who} {on} {right}"
                );
            }
            self.counts.issuers += u64::from(issued && listed == 0);
            self.counts.holders += u64::from(listed == 1 && !issued);
        }
    }
}

/// One list of creates and allows among so many items and rights.
fn list(random: &mut Random, items: u32, rights: u32, length: u32) -> Counts {
    let mut both = Both::fresh();
    for step in 0..length {
        let beyond = random.percent(2);
        let mut item = || if beyond { 62 + random.below(4) } else { random.below(items) };
        let (by, to, on) = (item(), item(), item());
        let by = if random.percent(40) { 0 } else { by };
        // Right 0 often, so that allowed persons allow.
        let right = if random.percent(35) { 0 } else { random.below(rights) };
        if random.percent(20) {
            both.create(by, on);
        } else {
            both.allow(by, to, on, right);
        }
        if step < 16 || step % 128 == 0 {
            both.compare(false);
        }
        if both.live() == 1024 {
            break;
        }
    }
    both.compare(true);
    both.counts
}

impl Counts {
    fn all(&self) -> [u64; 6] {
        let Counts { creates, allows, only_generated, by_allowed, issuers, holders } = self;
        [*creates, *allows, *only_generated, *by_allowed, *issuers, *holders]
    }
}

#[test]
fn creates_and_allows() {
    let mut random = Random::new(seed());
    let mut total = [0; 6];
    for (items, rights, length) in [(4, 2, 60), (6, 3, 200), (12, 8, 500), (64, 2, 2_000)] {
        let counts = list(&mut random, items, rights, length);
        println!("{items} items, {rights} rights: {counts:?}");
        total.iter_mut().zip(counts.all()).for_each(|(sum, count)| *sum += count);
    }
    assert!(total.iter().all(|&count| count > 0), "{total:?}");
}

#[test]
#[ignore = "takes minutes"]
fn long() {
    let mut random = Random::new(seed() + 1);
    for round in 0..300 {
        list(&mut random, [4, 6, 12, 64][round % 4], 8, 100 + 9 * round as u32);
    }
}
