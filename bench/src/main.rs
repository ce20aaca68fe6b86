//! `bench`: checks that the proved and the in-place programs agree, then times both and prints
//! tables: of sheets, and of single calls. `bench check` does the first alone, `bench calls` leaves
//! out the sheets. `bench drive PROGRAM N WORKLOAD` runs one program alone N times, for a profiler.

mod check;
mod inplace;
mod made;
mod proved;
mod sheets;
mod single;
mod text;
mod tiling;
mod timing;
mod told;
mod waiting;

use sheets::MOST_LANES;
use std::process::ExitCode;
use timing::{Buffers, Measured};

const LONGEST: usize = inplace::MOST_SHEET;

const COLUMNS: &str =
    "events | text bytes | proved | in place | ratio | plain digits | ratio | samples |";

fn print_heading(title: &str) {
    println!("\n| {title:<24} | {COLUMNS}");
    println!("|---|---|---|---|---|---|---|---|---|");
}

fn print_row(name: &str, measured: &Measured) {
    let [proved, inplace, plain] = measured.per_event();
    let (events, text, samples) = (measured.events, measured.text, measured.samples);
    let (ratio, plain_ratio) = (proved / inplace, proved / plain);
    print!("| {name:<24} | {events:>6} | {text:>10} | {proved:>6.2} | {inplace:>8.2} ");
    println!("| {ratio:>5.2} | {plain:>12.2} | {plain_ratio:>5.2} | {samples:>7} |");
}

fn time_workloads(buffers: &mut Buffers, lanes: u8) {
    print_heading(&format!("64 KiB, {lanes} lanes"));
    for (name, sheet) in sheets::workloads(LONGEST, lanes) {
        print_row(name, &buffers.measure(&sheet));
    }
}

fn time_lengths(buffers: &mut Buffers) {
    print_heading("shared writes, by length");
    for length in [1_024, 8_192, LONGEST] {
        let sheet = sheets::shared_writes(length, MOST_LANES);
        print_row(&format!("{} KiB", length / 1_024), &buffers.measure(&sheet));
    }
}

fn time_lanes(buffers: &mut Buffers) {
    print_heading("shared writes, by lanes");
    for lanes in [1, 12, 64, MOST_LANES] {
        let sheet = sheets::shared_writes(LONGEST, lanes);
        print_row(&format!("lanes: {lanes}"), &buffers.measure(&sheet));
    }
}

fn time_blocks(buffers: &mut Buffers) {
    print_heading("shared writes, by blocks");
    for blocks in [1, 4, 8] {
        let sheet = sheets::shared_writes_in_view(LONGEST, MOST_LANES, blocks);
        print_row(&format!("blocks: {blocks}"), &buffers.measure(&sheet));
    }
}

fn time_distances(buffers: &mut Buffers) {
    print_heading("two lanes, by distance");
    for distance in [1, 8, 64, 127] {
        let sheet = sheets::distant_writes(LONGEST, distance);
        print_row(&format!("lanes apart: {distance}"), &buffers.measure(&sheet));
    }
}

/// How busy the machine is, where the system tells.
fn print_load() {
    if let Ok(load) = std::fs::read_to_string("/proc/loadavg") {
        println!("Load average: {}", load.trim());
    }
}

fn time_all() {
    let mut buffers = Buffers::new();
    println!("Times are nanoseconds an event, the best sample of each program. All run in one");
    println!("process, by turns, over the same book, text and report. None is cleared between");
    println!(
        "runs: a sheet's opening zeroes the book, within the time; the text is overwritten, and"
    );
    println!("the report grows.");
    println!("Plain digits: the in-place program with its decimal digits divided out one by one.");
    println!("A ratio is the proved program's time over that of the column before it.");
    print_load();
    time_workloads(&mut buffers, MOST_LANES);
    time_workloads(&mut buffers, 64);
    time_lengths(&mut buffers);
    time_lanes(&mut buffers);
    time_blocks(&mut buffers);
    time_distances(&mut buffers);
    println!();
    print_load();
}

fn time_calls() {
    single::time_all();
    println!();
    print_load();
}

/// Whether the programs for single calls agree.
fn agree_on_calls() -> bool {
    match single::check() {
        Err(difference) => {
            println!("single calls: {difference}");
            false
        }
        Ok(checked) => {
            let (lists, calls) = (checked.lists, checked.calls);
            println!(
                "{lists} lists with {calls} single calls: same answers, same book; every word"
            );
            println!("and every refusal from 2 to 16 came up.\n");
            true
        }
    }
}

/// Whether the programs for sheets agree.
fn agree_on_sheets() -> bool {
    match check::check() {
        Err(difference) => {
            println!("the two programs differ: {difference}");
            false
        }
        Ok(checked) => {
            let (sheets, events) = (checked.sheets, checked.events);
            println!("{sheets} sheets with {events} events: same text, same book, same report;");
            println!(
                "every answer and every refusal from 2 to 17 came up, and the reports grew by"
            );
            println!("{} waits that ended and {} that did not.\n", checked.ended, checked.unended);
            true
        }
    }
}

/// Ends with 1 where programs differ.
fn code(agree: bool) -> ExitCode {
    if agree {
        ExitCode::SUCCESS
    } else {
        ExitCode::FAILURE
    }
}

fn check_and_time() -> ExitCode {
    let agree = agree_on_sheets() && agree_on_calls();
    if agree {
        time_all();
        time_calls();
    }
    code(agree)
}

fn check_and_time_calls() -> ExitCode {
    let agree = agree_on_calls();
    if agree {
        time_calls();
    }
    code(agree)
}

/// One program alone, on one workload.
fn drive(program: &str, times: &str, workload: &str) -> ExitCode {
    if let Ok(times) = times.parse() {
        if single::drive(program, times, workload).is_some() {
            return ExitCode::SUCCESS;
        }
    }
    let program = timing::PROGRAMS.iter().find(|known| known.name == program);
    let workload =
        sheets::workloads(LONGEST, MOST_LANES).into_iter().find(|(known, _)| *known == workload);
    let (Some(program), Ok(times), Some((_, sheet))) = (program, times.parse(), workload) else {
        return usage();
    };
    Buffers::new().repeat(program.run, &sheet, times);
    ExitCode::SUCCESS
}

fn usage() -> ExitCode {
    println!("use: bench | bench check | bench calls | bench drive PROGRAM N WORKLOAD");
    for program in timing::PROGRAMS {
        println!("program: {}", program.name);
    }
    for (name, _) in sheets::workloads(LONGEST, MOST_LANES) {
        println!("workload: {name}");
    }
    for program in single::PROGRAMS {
        println!("program for single calls: {program}");
    }
    for name in single::names() {
        println!("workload for single calls: {name}");
    }
    ExitCode::from(2)
}

fn main() -> ExitCode {
    let words: Vec<String> = std::env::args().skip(1).collect();
    let words: Vec<&str> = words.iter().map(String::as_str).collect();
    match words.as_slice() {
        [] => check_and_time(),
        ["check"] => code(agree_on_sheets() && agree_on_calls()),
        ["calls"] => check_and_time_calls(),
        ["drive", program, times, workload] => drive(program, times, workload),
        _ => usage(),
    }
}
