//! Numbers and what they are called: refusals by the header's own lines, version and layout date.

use std::collections::HashSet;
use std::fs;

use rights::{answer, NotARefusal, Refusal};

fn header() -> String {
    let path = concat!(env!("CARGO_MANIFEST_DIR"), "/../include/rights.h");
    fs::read_to_string(path).expect("the header")
}

/// The number that the header defines for a name.
fn defined(header: &str, name: &str) -> u32 {
    let define = format!("#define RIGHTS_{name} ");
    let line = header.lines().find_map(|line| line.strip_prefix(&define));
    line.expect(name).parse().expect(name)
}

/// The numbers that `rights_text` has a case for, and their texts.
fn cases(header: &str) -> Vec<(u32, &str)> {
    let lines = header.lines().filter_map(|line| line.trim().strip_prefix("case RIGHTS_"));
    let parts = lines.map(|line| line.split_once(": return \"").expect(line));
    parts.map(|(name, text)| (defined(header, name), text.trim_end_matches("\";"))).collect()
}

/// "0, RIGHTS_DONE, is no error"; every other number of the header has a name here and its text,
/// and no further number has.
#[test]
fn refusals_are_the_headers() {
    let header = header();
    let cases = cases(&header);
    assert_eq!(cases[0], (0, "done"));
    assert!(cases.len() > 17);
    for &(number, text) in &cases[1..] {
        let refusal = Refusal::try_from(number).expect(text);
        assert_eq!((refusal.number(), refusal.text()), (number, text));
        assert_eq!(answer(number), Err(refusal));
    }
    let numbers: Vec<u32> = Refusal::ALL.iter().map(|refusal| refusal.number()).collect();
    assert_eq!(numbers, cases[1..].iter().map(|case| case.0).collect::<Vec<u32>>());
    assert_eq!(Refusal::ALL.iter().collect::<HashSet<_>>().len(), numbers.len());
}

/// The names by the papers' numbers.
#[test]
fn refusals_by_name() {
    let paper = [
        Refusal::WrongLength,
        Refusal::NotInOrder,
        Refusal::OutOfRange,
        Refusal::ByDead,
        Refusal::NamedDead,
        Refusal::AlreadyLive,
        Refusal::RootItem,
        Refusal::NoEdit,
        Refusal::EditRight,
        Refusal::Full,
    ];
    assert_eq!(Refusal::ALL[..10], paper);
    assert_eq!(paper.map(Refusal::number), [1, 2, 3, 4, 5, 6, 7, 8, 9, 10]);
    let later = [Refusal::Malformed, Refusal::ShiftBack, Refusal::LastPast, Refusal::EmptySet];
    assert_eq!(Refusal::ALL[10..14], later);
    assert_eq!(later.map(Refusal::number), [11, 12, 13, 14]);
    let tickets = [Refusal::TicketsFull, Refusal::NumbersSpent, Refusal::NoTicket];
    assert_eq!(Refusal::ALL[14..17], tickets);
    assert_eq!(tickets.map(Refusal::number), [15, 16, 17]);
}

#[test]
fn no_refusal() {
    assert_eq!(answer(0), Ok(()));
    assert_eq!(Refusal::try_from(0), Err(NotARefusal(0)));
}

/// A number without a name is passed on as it is.
#[test]
fn unknown_numbers() {
    let next = Refusal::ALL.iter().map(|refusal| refusal.number()).max().expect("refusals") + 1;
    for number in [next, 1 << 20, u32::MAX] {
        assert_eq!(Refusal::try_from(number), Err(NotARefusal(number)));
        let refusal = Refusal::Unknown(number);
        assert_eq!(answer(number), Err(refusal));
        assert_eq!((refusal.number(), refusal.text()), (number, "no number of this engine"));
    }
}

#[test]
fn told() {
    assert_eq!(Refusal::ByDead.to_string(), "refused with 4: by does not live");
    let unknown = Refusal::Unknown(4_000);
    assert_eq!(unknown.to_string(), "refused with 4000: no number of this engine");
    assert_eq!(NotARefusal(77).to_string(), "77 is the number of no refusal");
}

/// The package's version is the engine's and the header's; the layout date is the header's.
#[test]
fn version_and_layout_date() {
    let parts = env!("CARGO_PKG_VERSION").split('.').map(|part| part.parse::<u32>());
    let version = parts.fold(0, |sum, part| 100 * sum + part.expect("a number"));
    assert_eq!((rights::version(), rights::VERSION), (version, version));
    let date = defined(&header(), "LAYOUT_DATE");
    assert_eq!((rights::layout_date(), rights::LAYOUT_DATE), (date, date));
    assert!(rights::archive_matches_header());
}
