//! `left GROUPS A B`: holds two outputs of a program `lent` (oracle/README.md) against each other, group by group. It names the first group that differs, and
//! exits 1; so it does where no sheet of the groups got 17 or no report grew, as then the comparison would show little.

use oracle_lib::report::REPORT_BYTES;
use oracle_lib::stream::{open_source, read_item};
use std::io::{self, Read};
use std::process::ExitCode;

const REFUSED_17: &[u8] = b"0 refused 17\n";

/// Of how many groups this was seen.
#[derive(Default)]
struct Seen {
    groups: usize,
    refused_17: usize,
    grown: usize,
}

/// Where two outputs of one group differ, if they do.
fn difference(a: &[u8], b: &[u8]) -> Option<String> {
    if a == b {
        return None;
    }
    if a.len() != b.len() {
        return Some(format!("A has {} bytes, B {}", a.len(), b.len()));
    }
    let at = a.iter().zip(b).position(|(x, y)| x != y)?;
    let part = if at + REPORT_BYTES < a.len() { "a printed text" } else { "the report" };
    Some(format!("byte {at} of {}, in {part}: A has {:02x}, B {:02x}", a.len(), a[at], b[at]))
}

/// Counts what is to be seen of a group and its output.
fn count(seen: &mut Seen, group: &[u8], left: &[u8]) -> Result<(), String> {
    let cut = || format!("group {}: shorter than a report", seen.groups);
    // A report is at the start of a group, and at the end of what is left of it.
    let lent = group.get(..REPORT_BYTES).ok_or_else(cut)?;
    let texts = left.len().checked_sub(REPORT_BYTES).ok_or_else(cut)?;
    let refused = left[..texts].windows(REFUSED_17.len()).any(|part| part == REFUSED_17);
    seen.refused_17 += usize::from(refused);
    seen.grown += usize::from(lent != &left[texts..]);
    seen.groups += 1;
    Ok(())
}

/// The next item of each stream, or none where all end.
fn next(streams: &mut [Box<dyn Read>; 3], number: usize) -> Result<Option<[Vec<u8>; 3]>, String> {
    let [group, a, b] = streams.each_mut().map(read_item);
    let cut = |error: io::Error| format!("group {number}: {error}");
    match (group.map_err(cut)?, a.map_err(cut)?, b.map_err(cut)?) {
        (None, None, None) => Ok(None),
        (Some(group), Some(a), Some(b)) => Ok(Some([group, a, b])),
        _ => Err(format!("group {number}: not in all three streams")),
    }
}

fn compare(names: [&str; 3]) -> Result<Seen, String> {
    let [group, a, b] = names.map(|name| open_source(name).map_err(|error| error.to_string()));
    let mut streams = [group?, a?, b?];
    let mut seen = Seen::default();
    while let Some([group, a, b]) = next(&mut streams, seen.groups)? {
        if let Some(what) = difference(&a, &b) {
            return Err(format!("group {} differs: {what}", seen.groups));
        }
        count(&mut seen, &group, &a)?;
    }
    Ok(seen)
}

/// The counts in words, or what is missing among them.
fn judge(seen: Seen) -> Result<String, String> {
    let Seen { groups, refused_17, grown } = seen;
    let told = format!("{groups} groups, {refused_17} with 17, {grown} with a grown report");
    if refused_17 == 0 || grown == 0 {
        return Err(format!("too little to see: {told}"));
    }
    Ok(told)
}

fn main() -> ExitCode {
    let words: Vec<String> = std::env::args().skip(1).collect();
    let [groups, a, b] = words.as_slice() else {
        eprintln!("use: left GROUPS A B");
        return ExitCode::from(2);
    };
    match compare([groups, a, b]).and_then(judge) {
        Ok(told) => {
            println!("{told}");
            ExitCode::SUCCESS
        }
        Err(fault) => {
            eprintln!("left: {fault}");
            ExitCode::from(1)
        }
    }
}
