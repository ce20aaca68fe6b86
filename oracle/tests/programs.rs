//! The programs themselves: `oracle report`, `oracle lent` and `generate groups`.

use oracle_lib::group::{left_bytes, Group};
use oracle_lib::make::group;
use oracle_lib::stream::read_item;
use std::fs;
use std::io::Write;
use std::path::PathBuf;
use std::process::{Command, Output, Stdio};

const ORACLE: &str = env!("CARGO_BIN_EXE_oracle");
const GENERATE: &str = env!("CARGO_BIN_EXE_generate");
const HEADER: &str = "lane     times       sum   largest      mean remainder   unended\n";

/// Document 01's example up to its releases: lane 1 waits for one release.
const SHEET: &[u8] = &[1, 2, 0, 0, 0, 64, 2, 0, 0, 2, 1, 0, 3, 1, 4, 0, 0, 2, 3, 1, 4, 1, 0, 1];

/// What a program does with these words and this standard input.
fn told(program: &str, words: &[&str], input: &[u8]) -> Output {
    let mut command = Command::new(program);
    command.args(words).stdin(Stdio::piped()).stdout(Stdio::piped()).stderr(Stdio::piped());
    let mut child = command.spawn().unwrap();
    let mut stdin = child.stdin.take().unwrap();
    let input = input.to_vec();
    let writer = std::thread::spawn(move || stdin.write_all(&input));
    let output = child.wait_with_output().unwrap();
    let _ = writer.join().unwrap(); // a program that ends early reads no more
    output
}

/// A file of this test with these bytes.
fn file(name: &str, bytes: &[u8]) -> String {
    let path = PathBuf::from(env!("CARGO_TARGET_TMPDIR")).join(name);
    fs::write(&path, bytes).unwrap();
    path.to_str().unwrap().to_string()
}

fn text(bytes: &[u8]) -> String {
    String::from_utf8(bytes.to_vec()).unwrap()
}

#[test]
fn report_over_no_file() {
    let output = told(ORACLE, &["report"], &[]);
    let all = " all         0         0         0         0         0         0\n";
    assert_eq!(text(&output.stdout), format!("{HEADER}{all}"));
    assert_eq!((output.status.code(), &output.stderr[..]), (Some(0), &b""[..]));
}

#[test]
fn report_over_files() {
    let (sheet, empty) = (file("sheet", SHEET), file("empty", &[]));
    let lines = "   1         2         2         1         1         0         1\n \
                 all         2         2         1         1         0         1\n";
    let waits = file("waits", &SHEET[..12]);
    let output = told(ORACLE, &["report", &sheet, &empty, &waits, &sheet], &[]);
    assert_eq!(text(&output.stdout), format!("{HEADER}{lines}"));
    assert_eq!((output.status.code(), &output.stderr[..]), (Some(0), &b""[..]));
    let output = told(ORACLE, &["report", "-", &waits, &sheet], SHEET);
    assert_eq!(text(&output.stdout), format!("{HEADER}{lines}"));
    assert_eq!(told(ORACLE, &["report", "-", "-"], SHEET).status.code(), Some(2));
}

/// Lane 0 holds; 9, 63, 64, 99, 100 and 127 of 128 wait, and all but the last are woken.
fn lanes_of_three_digits() -> Vec<u8> {
    let waiting = [9, 63, 64, 99, 100, 127];
    let mut sheet = vec![1, 128, 0, 0, 0, 64, 2, 0, 0];
    waiting.iter().for_each(|&lane| sheet.extend([2, lane, 0]));
    sheet.extend([4, 0, 0, 0]);
    waiting[..4].iter().for_each(|&lane| sheet.extend([3, lane, 4, lane, 0, 0]));
    sheet
}

#[test]
fn report_lines_up_lanes_of_three_digits() {
    let sheet = lanes_of_three_digits();
    let output = told(ORACLE, &["report", "-"], &sheet);
    let lines = [
        "lane     times       sum   largest      mean remainder   unended",
        "   9         1         1         1         1         0         0",
        "  63         1         2         2         2         0         0",
        "  64         1         3         3         3         0         0",
        "  99         1         4         4         4         0         0",
        " 100         1         5         5         5         0         0",
        " 127         0         0         0         0         0         1",
        " all         5        15         5         3         0         1",
    ];
    assert_eq!(text(&output.stdout), lines.map(|line| format!("{line}\n")).concat());
    assert_eq!(output.status.code(), Some(0));
}

#[test]
fn report_names_what_it_leaves_out() {
    let full = [SHEET, &[3; 65_536][SHEET.len()..]].concat();
    let (full, long) = (file("full", &full), file("long", &[full.clone(), vec![3]].concat()));
    let nothing = format!("{long}-not-there");
    let output = told(ORACLE, &["report", &long, &full, &nothing], &[]);
    let lines = "   1         1         1         1         1         0         0\n \
                 all         1         1         1         1         0         0\n";
    assert_eq!(text(&output.stdout), format!("{HEADER}{lines}"));
    let said = text(&output.stderr);
    let said: Vec<&str> = said.lines().collect();
    assert_eq!((said.len(), output.status.code()), (2, Some(1)));
    assert!(said[0].contains(&long) && said[1].contains(&nothing), "{said:?}");
}

#[test]
fn plain_runs_know_no_17() {
    let output = told(ORACLE, &[], &[3; 65_537]);
    assert_eq!(text(&output.stdout), "sheet too long\n");
    let stream = [&65_537u32.to_be_bytes()[..], &[3; 65_537]].concat();
    let wanted = [&15u32.to_be_bytes()[..], b"sheet too long\n"].concat();
    assert_eq!(told(ORACLE, &["many"], &stream).stdout, wanted);
}

#[test]
fn lent_runs_what_generate_makes() {
    let stream = told(GENERATE, &["groups", "8", "12", "--skip", "5"], &[]).stdout;
    let left = told(ORACLE, &["lent"], &stream).stdout;
    let (mut stream, mut left) = (&stream[..], &left[..]);
    for k in 5..17 {
        let mut group = group(8, k);
        assert_eq!(Group::of_bytes(&read_item(&mut stream).unwrap().unwrap()).unwrap(), group);
        let texts = group.run();
        let wanted = left_bytes(&texts, &group.report).unwrap();
        assert_eq!(read_item(&mut left).unwrap().unwrap(), wanted);
    }
    assert!(stream.is_empty() && left.is_empty());
}

#[test]
fn a_stream_that_is_cut_and_wrong_words() {
    let stream = told(GENERATE, &["groups", "8", "1"], &[]).stdout;
    let cut = told(ORACLE, &["lent"], &stream[..stream.len() - 1]);
    assert_eq!((cut.status.code(), cut.stderr.is_empty()), (Some(2), false));
    let short = [&7u32.to_be_bytes()[..], &[0; 7]].concat();
    assert_eq!(told(ORACLE, &["lent"], &short).status.code(), Some(2));
    for words in [&["groups"][..], &["groups", "1"], &["groups", "1", "1", "--raw"]] {
        assert_eq!(told(GENERATE, words, &[]).status.code(), Some(2));
    }
    assert_eq!(told(ORACLE, &["lend"], &[]).status.code(), Some(2));
}
