//! Measures the engine and prints the tables of docs/PERFORMANCE.md.

mod api;
mod calls;
mod engine;
mod lockstep;
mod measure;
mod plain;
mod program;
mod scans;
mod sizes;
mod state;
mod streams;
mod tickets;

use calls::Line;

fn print_calls(title: &str, second: &str, lines: &[Line]) {
    print_times(title, ["Call", "engine", second], lines);
}

fn print_times(title: &str, [what, first, second]: [&str; 3], lines: &[Line]) {
    println!("\n### {title}\n\n| {what} | {first}, ns | {second}, ns | ratio |\n|---|---:|---:|---:|");
    for Line { name, times } in lines {
        println!("| {name} | {:.0} | {:.0} | {:.2} |", times.first, times.second, times.ratio);
    }
}

/// The processor and the work beside the measurement, where the system tells them.
fn print_machine() {
    let processors = std::fs::read_to_string("/proc/cpuinfo").unwrap_or_default();
    let model = processors.lines().find_map(|line| line.strip_prefix("model name")).unwrap_or(": not known");
    let load = std::fs::read_to_string("/proc/loadavg").unwrap_or_default();
    let load = load.split(' ').next().unwrap_or("");
    println!("Processor{}; load before the start: {load}.", model.trim_start());
}

fn main() {
    lockstep::run();
    tickets::lockstep();
    print_machine();
    print_calls("Lists", "plain Rust", &calls::lists());
    print_calls("Rows", "plain Rust", &calls::rows());
    print_calls("Conversions", "plain Rust", &calls::conversions());
    print_calls("Chain unit: commands", "plain Rust", &calls::chains());
    print_calls("Chain unit: ends of a lender's grants", "plain Rust", &calls::endings());
    print_calls("Chain unit: sweeps", "plain Rust", &calls::sweeps());
    print_calls("Chain unit: checks", "plain Rust", &calls::checks());
    print_calls("Checks beside plain Rust that settles each person once", "settling", &calls::settling_checks());
    print_times("Sets of 40 members", ["Unit", "40 allows", "one allow_set"], &calls::sets());
    print_times("Drop", ["Beside", "drop", "the other"], &calls::drops());
    print_times("Withdraw as eight drops", ["Unit", "8 drops", "one withdraw"], &calls::withdraws());
    print_calls("Tickets: commands", "plain Rust", &tickets::calls());
    print_calls("Tickets: checks, inspections and records", "plain Rust", &tickets::looks());
    print_calls("In-order scans", "memory read", &scans::scans());
    program::print();
    sizes::print();
}
