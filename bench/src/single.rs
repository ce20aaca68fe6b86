//! Single calls: the proved call over state bytes against an in-place Rust line, checked and timed,
//! one workload alone for a profiler, and a call after a long history beside its replay.

mod check;
mod inplace;
mod lists;
mod proved;
mod timing;

pub use check::check;
pub use lists::Calls;

use crate::sheets::MOST_LANES;
use crate::told::Told;
use gudlemi::ANSWER_LENGTH;
use inplace::InPlace;
use lists::List;
use proved::Proved;
use timing::Measured;

/// The length of the books.
const BOOK: usize = 65_536;

/// The lanes of the lines that are timed.
const LANES_TIMED: [u8; 2] = [64, MOST_LANES];

/// A line that takes calls, and can go back to where it was saved. Its book does not go back.
trait Program {
    /// The answer to a call.
    fn call(&mut self, kind: u8, body: &[u8]) -> &[u8; ANSWER_LENGTH];
    fn save(&mut self);
    fn restart(&mut self);
}

fn print_heading(lanes: u8) {
    print!("\n| {:<24} | calls | proved | in place | ratio ", format!("calls, {lanes} lanes"));
    println!("| no kind | is sound | no line | samples |");
    println!("|---|---|---|---|---|---|---|---|---|");
}

fn print_row(name: &str, measured: &Measured) {
    let Measured { calls, samples, proved, inplace, no_kind, sound, no_line } = measured;
    let ratio = proved / inplace;
    print!("| {name:<24} | {calls:>5} | {proved:>6.0} | {inplace:>8.2} | {ratio:>5.0} ");
    println!("| {no_kind:>7.0} | {sound:>8.0} | {no_line:>7.0} | {samples:>7} |");
}

fn time_history() {
    let history = lists::history();
    let measured = timing::measure(&history);
    let replay = timing::measure_replay(&history);
    let (events, bytes) = (history.before.len(), history.before.sheet().len());
    println!(
        "\nAfter {events} events by single calls one more takes {:.0} ns (the mean of the next {});",
        measured.proved, measured.calls
    );
    println!("to replay the {events}, a sheet of {bytes} bytes, takes {replay:.0} ns.");
}

/// Times all workloads and prints the tables.
pub fn time_all() {
    println!(
        "\nSingle calls: nanoseconds a call, the best sample of each program. The line is kept"
    );
    println!(
        "in state bytes (proved) or in a Rust struct (in place); each list starts from a saved"
    );
    println!(
        "line. By the proved program also, over and over on the saved line: a call of no kind,"
    );
    println!("which is refused with 2 once the line was found sound; the test alone whether it is");
    println!("sound; and a call on bytes that are no line, by the last of the entries.");
    for lanes in LANES_TIMED {
        print_heading(lanes);
        for list in lists::lists(lanes) {
            print_row(list.name, &timing::measure(&list));
        }
    }
    time_history();
}

/// What can be run alone.
pub const PROGRAMS: [&str; 5] =
    ["call", "call-inplace", "call-no-kind", "call-is-sound", "call-no-line"];

/// The names of the workloads, each with its lanes.
pub fn names() -> Vec<String> {
    let named = |lanes| lists::lists(lanes).map(|list| format!("{}, {lanes}", list.name));
    LANES_TIMED.into_iter().flat_map(named).collect()
}

fn find(name: &str) -> Option<List> {
    let lists = LANES_TIMED.into_iter().flat_map(lists::lists);
    lists.zip(names()).find(|(_, known)| known == name).map(|(list, _)| list)
}

/// One program alone: a workload so many times, or so many times the call that is repeated on its
/// saved line. None where there is no such program or workload.
pub fn drive(program: &str, times: usize, name: &str) -> Option<()> {
    let list = find(name)?;
    let (mut book, mut other) = (vec![0; BOOK], vec![0; BOOK]);
    let (mut proved, mut inplace) = (Proved::new(&mut book), InPlace::new(&mut other));
    timing::prepare(&mut proved, &list.before);
    timing::prepare(&mut inplace, &list.before);
    match program {
        "call" => timing::repeat(&mut proved, &list.calls, times),
        "call-inplace" => timing::repeat(&mut inplace, &list.calls, times),
        "call-no-kind" => timing::probe(&mut proved, timing::NO_KIND, times),
        "call-is-sound" => timing::test_sound(&proved, times),
        "call-no-line" => {
            proved.spoil();
            timing::probe(&mut proved, 0x02, times);
        }
        _ => return None,
    }
    Some(())
}
