//! include/rights.h as Rust: constants, texts and declarations, and what the crate's records must be.

use std::fs;
use std::path::Path;

use crate::{rerun_if_changed, Outcome};

/// What every prototype begins with, and a line.
const BEGIN: &str = "RIGHTS_NODISCARD ";

/// The kinds of C and of Rust. A record is written out in the crate, for its readers.
const KINDS: [(&str, &str); 6] = [
    ("uint8_t", "u8"),
    ("uint16_t", "u16"),
    ("uint32_t", "u32"),
    ("uint64_t", "u64"),
    ("size_t", "usize"),
    (TICKET, "crate::Ticket"),
];

/// The one record.
const TICKET: &str = "rights_ticket";

/// Writes constants.rs, texts.rs and ffi.rs into the folder.
pub fn write(header: &Path, out: &Path) -> Outcome<()> {
    rerun_if_changed(header);
    let text =
        fs::read_to_string(header).map_err(|error| format!("{}: {error}", header.display()))?;
    let files = [
        ("constants.rs", Ok(constants(&text))),
        ("texts.rs", texts(&text)),
        ("ffi.rs", declarations(&text)),
    ];
    for (name, content) in files {
        let content = content.map_err(|message| format!("{}: {message}", header.display()))?;
        fs::write(out.join(name), content).map_err(|error| format!("{name}: {error}"))?;
    }
    Ok(())
}

/// One constant for each `#define RIGHTS_NAME number`.
fn constants(text: &str) -> String {
    text.lines().filter_map(constant).collect()
}

fn constant(line: &str) -> Option<String> {
    let mut words = line.strip_prefix("#define RIGHTS_")?.split_whitespace();
    let name = words.next()?;
    let value: u32 = words.next()?.parse().ok()?;
    let kind = kind_of(name);
    Some(format!("/// `RIGHTS_{name}` of include/rights.h.\npub const {name}: {kind} = {value};\n"))
}

/// Lengths of buffers count in `usize`; every other number is one that a call takes or gives.
fn kind_of(name: &str) -> &'static str {
    let ends = ["_WORDS", "_BYTES", "_PERSONS", "TICKETS_MAX"];
    let length = ends.iter().any(|end| name.ends_with(end));
    if length {
        "usize"
    } else {
        "u32"
    }
}

/// The macro `text!`: for the name of a number its text in `rights_text`, for `default` that of a
/// number which is none.
fn texts(text: &str) -> Outcome<String> {
    let arms: Vec<(&str, &str)> = text.lines().filter_map(|line| arm(line.trim())).collect();
    if arms.len() < 2 || arms.last().map(|(name, _)| *name) != Some("default") {
        return Err("rights_text has no lines `case RIGHTS_NAME: return \"text\";`".into());
    }
    let arms: String =
        arms.iter().map(|(name, said)| format!("    ({name}) => {{ {said} }};\n")).collect();
    Ok(format!("macro_rules! text {{\n{arms}}}\n"))
}

/// The name and the text, in its quotation marks, of a line of `rights_text`.
fn arm(line: &str) -> Option<(&str, &str)> {
    let (label, said) = line.strip_suffix(';')?.split_once(": return ")?;
    let name = if label == "default" { label } else { label.strip_prefix("case RIGHTS_")? };
    Some((name, said))
}

/// The functions of the header, each with the comment above it, and the test of the record.
fn declarations(text: &str) -> Outcome<String> {
    let functions = text
        .match_indices(BEGIN)
        .filter(|&(at, _)| text[..at].ends_with('\n'))
        .map(|(at, _)| declaration(&text[..at], &text[at..]))
        .collect::<Outcome<Vec<String>>>()?;
    let of_kind = |(kind, _): &(&str, &str)| text.matches(&format!("{kind} rights_")).count();
    let every: usize = KINDS.iter().map(of_kind).sum();
    if functions.is_empty() || functions.len() != every {
        let read = functions.len();
        return Err(format!("{every} prototypes, of which {read} begin with `{BEGIN}`"));
    }
    Ok(format!("extern \"C\" {{\n{}}}\n{}", functions.concat(), record_test(text, TICKET)?))
}

/// The declaration of the prototype that the second text begins with.
fn declaration(before: &str, from: &str) -> Outcome<String> {
    let end = from.find(';').ok_or("a prototype has no end")?;
    let prototype = from[BEGIN.len()..end].split_whitespace().collect::<Vec<_>>().join(" ");
    let unread = |what: &str| format!("cannot read the prototype `{prototype}`: {what}");
    let (result, named) = prototype.split_once(' ').ok_or_else(|| unread("no result"))?;
    let result = rust_kind(result).ok_or_else(|| unread("its result"))?;
    let (name, rest) = named.split_once('(').ok_or_else(|| unread("no parameters"))?;
    let parameters = match rest.strip_suffix(") RIGHTS_NONNULL") {
        Some(listed) => listed.split(", ").map(parameter).collect::<Option<Vec<String>>>(),
        None => Some(Vec::new()).filter(|_| rest == "void)"),
    };
    let parameters = parameters.ok_or_else(|| unread("a parameter, or the end"))?.join(", ");
    if !name.starts_with("rights_") || !is_name(name) {
        return Err(unread("its name"));
    }
    let says = comment(before).ok_or_else(|| unread("no comment stands above it"))?;
    Ok(format!("#[doc = {says:?}]\n#[must_use]\npub fn {name}({parameters}) -> {result};\n"))
}

/// `const uint8_t *grants` as `grants: *const u8`.
fn parameter(c: &str) -> Option<String> {
    let (pointed, rest) = match c.strip_prefix("const ") {
        Some(rest) => ("*const ", rest),
        None => ("*mut ", c),
    };
    let (kind, name) = rest.split_once(' ')?;
    let kind = rust_kind(kind)?;
    let (pointed, name) = match name.strip_prefix('*') {
        Some(name) => (pointed, name),
        None => ("", name),
    };
    let by_value = pointed.is_empty() && c.starts_with("const ");
    Some(format!("{name}: {pointed}{kind}")).filter(|_| is_name(name) && !by_value)
}

fn rust_kind(c: &str) -> Option<&'static str> {
    KINDS.iter().find(|(kind, _)| *kind == c).map(|(_, rust)| *rust)
}

/// Fails to compile where the crate's record has not the fields of the header's, in their order, or
/// has another beside them.
fn record_test(text: &str, name: &str) -> Outcome<String> {
    let unread = |what: &str| format!("cannot read the record `{name}`: {what}");
    let begin = format!("typedef struct {name} {{\n");
    let (_, rest) = text.split_once(&begin).ok_or_else(|| unread("no typedef"))?;
    let (body, _) = rest.split_once(&format!("\n}} {name};")).ok_or_else(|| unread("no end"))?;
    let fields = body.lines().map(field).collect::<Option<Vec<_>>>();
    let fields = fields.ok_or_else(|| unread("a field"))?;
    let record = rust_kind(name).ok_or_else(|| unread("its name"))?;
    let list = |one: &dyn Fn(&str, &str) -> String| -> String {
        fields.iter().map(|(kind, field)| one(kind, field)).collect()
    };
    let declared = list(&|kind, field| format!("{field}: {kind}, "));
    let taken = list(&|_, field| format!("{field}: header.{field}, "));
    let placed = list(&|_, field| {
        format!("    assert!(offset_of!(Header, {field}) == offset_of!({record}, {field}));\n")
    });
    Ok(format!(
        "const _: () = {{\n\
         \x20   use core::mem::{{offset_of, size_of}};\n\
         \x20   #[repr(C)]\n\
         \x20   struct Header {{ {declared}}}\n\
         \x20   const fn taken(header: Header) -> {record} {{ {record} {{ {taken}}} }}\n\
         \x20   let _ = taken;\n\
         {placed}\
         \x20   assert!(size_of::<Header>() == size_of::<{record}>());\n\
         }};\n"
    ))
}

/// The kind and the name of a line `    uint32_t number;`.
fn field(line: &str) -> Option<(&'static str, &str)> {
    let (kind, name) = line.trim().strip_suffix(';')?.split_once(' ')?;
    Some((rust_kind(kind)?, name)).filter(|_| is_name(name))
}

fn is_name(text: &str) -> bool {
    !text.is_empty() && text.bytes().all(|byte| byte.is_ascii_lowercase() || byte == b'_')
}

/// The comment that ends right above, its lines without the marks of C, as text for rustdoc.
fn comment(before: &str) -> Option<String> {
    let body = before.strip_suffix("*/\n")?;
    let body = &body[body.rfind("/*")? + 2..];
    // Every line but the first begins with a mark.
    let bare = body.replace("\n *", "\n");
    let mut says = bare.lines().map(str::trim).collect::<Vec<_>>().join("\n").trim().to_string();
    for mark in ["*", "[", "<"] {
        says = says.replace(mark, &format!("\\{mark}"));
    }
    Some(says)
}
