//! The program and its SQLite version, on the same streams of command lines.

use crate::streams::{self, Line, Via};
use std::fs::{self, File};
use std::path::{Path, PathBuf};
use std::process::Command;
use std::time::Instant;

const RUNS: usize = 3;
const HERE: &str = env!("CARGO_MANIFEST_DIR");

/// A stream: the lines that make its state, then those that are timed; and how many of all the SQLite version gets.
struct Stream {
    name: &'static str,
    lines: Vec<Line>,
    opening: usize,
    for_sqlite: usize,
}

fn all_streams() -> Vec<Stream> {
    let stream = |name, lines, opening, for_sqlite| Stream { name, lines, opening, for_sqlite };
    vec![
        stream("checks, 20 items and 30 loans", streams::checks(500_000), streams::SMALL_OPENING, 30_000),
        stream(
            "commands and checks, 20 items and at most 30 loans",
            streams::mixed(500_000),
            streams::SMALL_OPENING,
            30_000,
        ),
        stream(
            "commands and checks, 20 items, loans piling up",
            streams::growing(500_000),
            streams::SMALL_OPENING,
            30_000,
        ),
        stream("allows, 64 items", streams::allows(200_000), streams::ITEMS_OPENING, 30_000),
        stream("allowsets of 40 members, 64 items", streams::allow_sets(200_000), streams::ITEMS_OPENING, 3_000),
        stream("malformed lines", streams::malformed(500_000), 0, 200_000),
        stream("checks, 1,024 loans of the key", streams::full(50_000), streams::FULL_OPENING, 1_700),
    ]
}

fn write_lines(file: &Path, lines: &[Line]) {
    let text: String = lines.iter().map(|line| line.text() + "\n").collect();
    fs::write(file, text).expect("the stream can be written");
}

fn seconds(command: &mut Command, input: &Path, output: &Path) -> f64 {
    let source = File::open(input).expect("the stream can be read");
    let target = File::create(output).expect("the output can be written");
    let start = Instant::now();
    let status = command.stdin(source).stdout(target).status().expect("the program can be run");
    let spent = start.elapsed().as_secs_f64();
    assert!(status.success(), "{command:?} failed");
    spent
}

/// The least time of these lines in some runs, and the last output.
fn timed(command: &mut Command, folder: &Path, lines: &[Line]) -> (f64, String) {
    let (input, output) = (folder.join("in"), folder.join("out"));
    write_lines(&input, lines);
    let least = (0..RUNS).map(|_| seconds(command, &input, &output)).fold(f64::INFINITY, f64::min);
    (least, fs::read_to_string(&output).expect("the output is text"))
}

/// Lines a second after the opening, whose time and the start of the program are taken off. The output is held
/// against documents 01 and 02, its chains as `kind` says.
fn rate(command: &mut Command, folder: &Path, lines: &[Line], opening: usize, kind: Via) -> f64 {
    let (start, _) = timed(command, folder, &lines[..opening]);
    let (whole, output) = timed(command, folder, lines);
    streams::audit(lines, &output, kind);
    (lines.len() - opening) as f64 / (whole - start)
}

fn program() -> PathBuf {
    match std::env::var("RIGHTS_BIN") {
        Ok(path) => PathBuf::from(path),
        Err(_) => Path::new(HERE).join("../target/bin/rights"),
    }
}

fn print_stream(stream: &Stream, folder: &Path) {
    let Stream { name, lines, opening, for_sqlite } = stream;
    let mut python = Command::new("python3");
    python.arg(Path::new(HERE).join("sqlite_engine.py"));
    let sqlite = rate(&mut python, folder, &lines[..*for_sqlite], *opening, Via::Best);
    if !program().exists() {
        println!("| {name} | not built | {sqlite:.0} | - |");
        return;
    }
    let engine = rate(&mut Command::new(program()), folder, lines, *opening, Via::Shortest);
    println!("| {name} | {engine:.0} | {sqlite:.0} | {:.0} |", engine / sqlite);
}

pub fn print() {
    println!("\n### The program, lines a second\n\n| Stream | program | SQLite | ratio |\n|---|---:|---:|---:|");
    let folder = std::env::temp_dir().join(format!("rights-bench-{}", std::process::id()));
    fs::create_dir_all(&folder).expect("a temporary folder can be made");
    all_streams().iter().for_each(|stream| print_stream(stream, &folder));
    fs::remove_dir_all(&folder).expect("the temporary folder can be removed");
}
