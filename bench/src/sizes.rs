//! The size of the library, its largest stack frame, and the images.

use crate::api::{CHAIN_PERSONS, GRANTS_BYTES, LISTS_WORDS, LOANS_WORDS, ROWS_BYTES, TICKETS_WORDS};
use std::path::{Path, PathBuf};
use std::process::Command;

fn archive() -> PathBuf {
    let folder = match option_env!("RIGHTS_LIB_DIR") {
        Some(folder) => PathBuf::from(folder),
        None => Path::new(env!("CARGO_MANIFEST_DIR")).join("../target/staticlib"),
    };
    folder.join("librights_c.a")
}

fn printed(command: &mut Command) -> String {
    let output = command.arg(archive()).output().expect("binutils are there");
    String::from_utf8_lossy(&output.stdout).into_owned()
}

/// Bytes of code, constants and data, from the last line of `size -t`: text, data, bss.
fn library_bytes() -> u64 {
    let text = printed(Command::new("size").arg("-t"));
    let totals = text.lines().last().unwrap_or("");
    totals.split_whitespace().take(3).filter_map(|field| field.parse::<u64>().ok()).sum()
}

/// The bytes that a line of disassembly takes from the stack: `sub $0x28,%rsp` or `push %rbx`.
fn taken(line: &str) -> u64 {
    if line.contains("push ") {
        return 8;
    }
    let Some((_, operand)) = line.split_once("sub    $0x") else {
        return 0;
    };
    operand.strip_suffix(",%rsp").and_then(|hex| u64::from_str_radix(hex, 16).ok()).unwrap_or(0)
}

/// The function with the largest frame, and the frame's bytes.
fn largest_frame() -> (String, u64) {
    let text = printed(Command::new("objdump").args(["-d", "--no-show-raw-insn"]));
    let frames = text.split("\n\n").map(|function| {
        let name = function.split(['<', '>']).nth(1).unwrap_or("").to_string();
        (name, function.lines().map(|line| taken(line.trim_end())).sum())
    });
    frames.max_by_key(|frame| frame.1).expect("the archive has functions")
}

pub fn print() {
    let (name, frame) = largest_frame();
    let rows = [
        ("library: code, constants and data".to_string(), library_bytes()),
        (format!("largest stack frame: {name}"), frame),
        ("image of lists".to_string(), 8 * LISTS_WORDS as u64),
        ("image of rows".to_string(), ROWS_BYTES as u64),
        ("grants of a chain unit".to_string(), GRANTS_BYTES as u64),
        ("loans of a chain unit".to_string(), 4 * LOANS_WORDS as u64),
        ("chain buffer of a check".to_string(), CHAIN_PERSONS as u64),
        ("image of tickets".to_string(), 8 * TICKETS_WORDS as u64),
    ];
    println!("\n### Sizes\n\n| What | bytes |\n|---|---:|");
    rows.iter().for_each(|(name, bytes)| println!("| {name} | {bytes} |"));
}
