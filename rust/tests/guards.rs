//! That guard pages see what they are for, and the results that a call writes through pointers,
//! each at a guard page.

mod guarded;
mod model;

use std::env;
use std::os::unix::process::ExitStatusExt;
use std::process::Command;

use guarded::{Guarded, Side, SIDES};
use model::{
    image_of, loans_image, ticket_image, Grant, GrantLayout, Journal, ListLayout, Loan, RowLayout,
    TicketState,
};
use rights::{ffi, Ticket};

/// Names the access that the process is to make.
const ACCESS: &str = "RIGHTS_TEST_ACCESS";
const SIGSEGV: i32 = 11;

/// Makes one access to a buffer of 513 words, on the guarded side.
fn touch(access: &str) {
    let (place, cell) = access.split_once(' ').expect("two words");
    let (side, at) = match cell {
        "first" => (Side::Front, 0),
        "before" => (Side::Front, -1),
        "last" => (Side::Back, 512),
        _ => (Side::Back, 513),
    };
    let buffer = Guarded::new(&[1u64; 513], side);
    let cell = buffer.pointer().wrapping_offset(at);
    // SAFETY: none where the cell lies in a guard page, and that is what the process ends of.
    unsafe {
        if place == "read" {
            println!("{}", cell.read_volatile());
        } else {
            cell.write_volatile(2);
        }
    }
}

/// One cell too far ends the process, by reading and by writing; the cells of the buffer do not.
#[test]
fn touching_a_guard_page() {
    if let Ok(access) = env::var(ACCESS) {
        return touch(&access);
    }
    let ends = |access: &str| {
        let mut child = Command::new(env::current_exe().expect("this program"));
        child.args(["--exact", "touching_a_guard_page"]).env(ACCESS, access);
        child.output().expect("a process").status
    };
    for access in ["read before", "read after", "write before", "write after"] {
        assert_eq!(ends(access).signal(), Some(SIGSEGV), "{access}");
    }
    for access in ["read first", "read last", "write first", "write last"] {
        assert!(ends(access).success(), "{access}");
    }
}

/// Right 1 on item 0 granted to it at depth 2, and lent by it to itself at depth 1.
fn state() -> Journal {
    let mut journal = Journal::fresh();
    journal.grants.insert(Grant { item: 0, right: 1, person: 0, depth: 2 });
    journal.loans.insert(Loan { lender: 0, item: 0, right: 1, borrower: 0, depth: 1, last: 0 });
    journal
}

/// The checks and the subjects of lists and rows, by the raw declarations.
macro_rules! flat_results {
    ($name:ident, $layout:ident, $check:ident, $subjects:ident) => {
        #[test]
        fn $name() {
            let image = image_of::<$layout>(&state());
            let (at, length) = (image.as_ptr(), image.len());
            for side in SIDES {
                for (length, right, number, said) in
                    [(length, 1, 0, 1), (length, 2, 0, 0), (length, 8, 3, 0), (0, 1, 1, 0)]
                {
                    let mut yes = Guarded::new(&[9u32], side);
                    // SAFETY: pointers to an image, with its length or less, and to a number.
                    let given = unsafe { ffi::$check(at, length, 0, 0, right, yes.pointer()) };
                    assert_eq!(given, number);
                    yes.assert_holds(&[said], "a check");
                }
                for (length, number, said) in [(length, 0, 1), (0, 1, 0)] {
                    let mut persons = Guarded::new(&[9u64], side);
                    // SAFETY: as above.
                    let given = unsafe { ffi::$subjects(at, length, persons.pointer()) };
                    assert_eq!(given, number);
                    persons.assert_holds(&[said], "subjects");
                }
            }
        }
    };
}

flat_results!(lists, ListLayout, rights_lists_check, rights_lists_subjects);
flat_results!(rows, RowLayout, rights_rows_check, rights_rows_subjects);

/// The chain unit's check, by the raw declaration: the chain, the depth and the number of persons.
#[test]
fn chains() {
    let journal = state();
    let (grants, loans) = (image_of::<GrantLayout>(&journal), loans_image(&journal));
    let check = |right: u32, side: Side| {
        let mut chain = Guarded::new(&[9u8; 8], side);
        let (depth, persons) = (Guarded::new(&[9u32], side), Guarded::new(&[9u32], side));
        let (at, words) = (grants.as_ptr(), loans.as_ptr());
        let (to, max) = (chain.slice().as_mut_ptr(), chain.slice().len());
        let (length, count) = (grants.len(), loans.len());
        // SAFETY: pointers to two images, a chain buffer and two numbers, with their lengths.
        let number = unsafe {
            let (depth, persons) = (depth.pointer(), persons.pointer());
            ffi::rights_chains_check(at, length, words, count, 0, 0, right, to, max, depth, persons)
        };
        (number, chain, depth, persons)
    };
    let no = [255; 8];
    let yes = [0, 255, 255, 255, 255, 255, 255, 255];
    for side in SIDES {
        for (right, said, held, deep, count) in
            [(1, 0, yes, 2, 1), (2, 0, no, 0, 0), (8, 3, [9; 8], 0, 0)]
        {
            let (number, mut chain, mut depth, mut persons) = check(right, side);
            assert_eq!(number, said);
            chain.assert_holds(&held, "a check");
            depth.assert_holds(&[deep], "a check");
            persons.assert_holds(&[count], "a check");
        }
    }
}

/// sweep, by the raw declaration: the count, with the past loan at item 0 in shift 6; by 0, by 1, who is
/// dead, by 64, and with a length of 0.
#[test]
fn swept() {
    let mut journal = Journal { shift: 6, ..state() };
    journal.loans.insert(Loan { lender: 0, item: 0, right: 1, borrower: 0, depth: 1, last: 5 });
    let (grants, loans) = (image_of::<GrantLayout>(&journal), loans_image(&journal));
    for side in SIDES {
        for (words, by, number, said) in
            [(1025, 0, 0, 1), (1025, 1, 4, 0), (1025, 64, 3, 0), (0, 0, 1, 0)]
        {
            let (mut grants, mut loans) = (grants.clone(), loans.clone());
            let mut swept = Guarded::new(&[9u32], side);
            let (at, length) = (grants.as_mut_ptr(), grants.len());
            let table = loans.as_mut_ptr();
            // SAFETY: pointers to two images, with their lengths or less, and to a number.
            let given =
                unsafe { ffi::rights_chains_sweep(at, length, table, words, by, swept.pointer()) };
            assert_eq!(given, number);
            swept.assert_holds(&[said], "a sweep");
        }
    }
}

/// The ticket unit's check, that over records, and generate, by the raw declarations.
#[test]
fn tickets() {
    let image = ticket_image(&TicketState::fresh());
    let first = Ticket { number: 0, item: 0, right: 0, issuer: 0, holders: 1 };
    let mut records = vec![Ticket::VACANT; 1024];
    records[0] = first;
    for side in SIDES {
        for (words, right, number, said) in
            [(2050, 0, 0, 1), (2050, 1, 0, 0), (2050, 8, 3, 0), (0, 0, 1, 0)]
        {
            let mut yes = Guarded::new(&[9u32], side);
            // SAFETY: pointers to an image, with its length or less, and to a number.
            let given = unsafe {
                ffi::rights_tickets_check(image.as_ptr(), words, 0, 0, right, yes.pointer())
            };
            assert_eq!(given, number);
            yes.assert_holds(&[said], "a check");
            let (mut yes, places) = (Guarded::new(&[9u32], side), words.min(1024));
            // SAFETY: pointers to records, with their number or less, and to a number.
            let given = unsafe {
                let at = records.as_ptr();
                ffi::rights_tickets_check_records(at, places, 0, 0, right, yes.pointer())
            };
            assert_eq!(given, number);
            yes.assert_holds(&[said], "a check of records");
        }
        for (words, right, number, said) in [(2050, 7, 0, 1), (2050, 8, 3, 0), (0, 0, 1, 0)] {
            let (mut image, mut ticket) = (image.clone(), Guarded::new(&[9u32], side));
            // SAFETY: as of the check, and the image may be written.
            let given = unsafe {
                let at = image.as_mut_ptr();
                ffi::rights_tickets_generate(at, words, 0, 0, right, ticket.pointer())
            };
            assert_eq!(given, number);
            ticket.assert_holds(&[said], "generate");
        }
    }
}

/// No record is read but the one at the place: one record between guard pages, and none.
#[test]
fn ticket_at() {
    let record = Ticket { number: 1, item: 2, right: 3, issuer: 4, holders: 5 };
    for side in SIDES {
        for place in [0, 1, 2, 1023, 1024, usize::MAX / 16, usize::MAX] {
            let mut one = Guarded::new(&[record], side);
            let due = if place == 0 { record } else { Ticket::VACANT };
            // SAFETY: a pointer to one record, and its number.
            assert_eq!(unsafe { ffi::rights_tickets_at(one.pointer(), 1, place) }, due);
            one.assert_holds(&[record], "a look");
            let none = Guarded::new(&[] as &[Ticket], side);
            // SAFETY: a pointer to no record.
            let found = unsafe { ffi::rights_tickets_at(none.pointer(), 0, place) };
            assert_eq!(found, Ticket::VACANT);
        }
    }
}
