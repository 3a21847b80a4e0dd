//! The proved engine, by the Rust crate's functions over slices.

use crate::api::{Api, Chains, Flat, Found, Said, Tickets};
use rights::lent::{chains, convert, lists, rows, tickets};

macro_rules! flat_unit {
    ($unit:ident) => {
        Flat {
            fresh: $unit::fresh,
            create: $unit::create,
            delete: $unit::delete,
            allow: |image, g| $unit::allow(image, g.by, g.to, g.on, g.right, g.depth),
            allow_set: |image, set, g| $unit::allow_set(image, g.by, set, g.on, g.right, g.depth),
            withdraw: |image, g| $unit::withdraw(image, g.by, g.to, g.on, g.right),
            check: |image, q| {
                let (number, yes) = $unit::check(image, q.who, q.on, q.right);
                Said { number, value: u64::from(yes) }
            },
            subjects: |image| {
                let (number, value) = $unit::subjects(image);
                Said { number, value }
            },
            inspect: $unit::inspect,
        }
    };
}

const CHAINS: Chains = Chains {
    fresh: chains::fresh,
    create: chains::create,
    delete: chains::delete,
    allow: |grants, loans, g| chains::allow(grants, loans, g.by, g.to, g.on, g.right, g.depth),
    allow_set: |grants, loans, set, g| chains::allow_set(grants, loans, g.by, set, g.on, g.right, g.depth),
    withdraw: |grants, loans, g| chains::withdraw(grants, loans, g.by, g.to, g.on, g.right),
    drop: |grants, loans, g| chains::drop(grants, loans, g.by, g.to, g.on, g.right, g.depth),
    lend: |grants, loans, g| chains::lend(grants, loans, g.by, g.to, g.on, g.right, g.depth, 0),
    recall: |grants, loans, g| chains::recall(grants, loans, g.by, g.to, g.on, g.right, g.depth, 0),
    sweep: |grants, loans, by| said(chains::sweep(grants, loans, by)),
    check: |grants, loans, q, chain| {
        let checked = chains::check(grants, loans, q.who, q.on, q.right, chain);
        Found { number: checked.number, depth: checked.depth, persons: checked.persons }
    },
    inspect: chains::inspect,
};

fn said((number, value): (u32, u32)) -> Said {
    Said { number, value: u64::from(value) }
}

const TICKETS: Tickets = Tickets {
    fresh: tickets::fresh,
    create: tickets::create,
    generate: |image, by, on, right| said(tickets::generate(image, by, on, right)),
    pass: tickets::pass,
    remove: tickets::remove,
    delete: tickets::delete,
    check: |image, q| said(tickets::check(image, q.who, q.on, q.right)),
    inspect: tickets::inspect,
    records: tickets::records,
    at: tickets::at,
    check_records: |records, q| said(tickets::check_records(records, q.who, q.on, q.right)),
};

pub const ENGINE: Api = Api {
    lists: flat_unit!(lists),
    rows: flat_unit!(rows),
    lists_to_rows: convert::lists_to_rows,
    rows_to_lists: convert::rows_to_lists,
    chains: CHAINS,
    tickets: TICKETS,
};
