//! One sheet, whole: what `linebook` prints, and the run with a lent report.

use crate::answer::Answer;
use crate::event::read_event;
use crate::line::{Machine, Search};
use crate::refuse::{refuse_17_report_or_sheet_too_large, refuse_1_line_not_sound};
use crate::report::{Report, Said};

pub const MOST_SHEET: usize = 65_536;
pub const TOO_LONG: &str = "sheet too long\n";

/// The printed lines of a sheet.
pub fn print_sheet(sheet: &[u8], search: Search) -> Vec<u8> {
    if sheet.len() > MOST_SHEET {
        return TOO_LONG.as_bytes().to_vec();
    }
    let mut machine = Machine::new(search);
    let answers = run(&mut machine, sheet);
    print_answers(&machine, &answers)
}

/// The printed lines of a sheet run with a lent report, whatever the sheet's length.
pub fn print_sheet_with_report(sheet: &[u8], search: Search, report: &mut Report) -> Vec<u8> {
    let mut machine = Machine::new(search);
    let answers = run_with_report(&mut machine, sheet, report);
    print_answers(&machine, &answers)
}

fn print_answers(machine: &Machine, answers: &[Answer]) -> Vec<u8> {
    let mut out = String::new();
    for (number, answer) in answers.iter().enumerate() {
        out.push_str(&format!("{number} {}\n", answer.text()));
    }
    out.push_str(&format!("end {} {}\n", machine.line.size, machine.line.pointer));
    out.into_bytes()
}

/// The answers of a run. Refusals 1, 2 and 3 end it.
pub fn run(machine: &mut Machine, sheet: &[u8]) -> Vec<Answer> {
    if refuse_1_line_not_sound(&machine.line, machine.book.len()) {
        return vec![Answer::Refused { number: 1 }];
    }
    let mut answers = Vec::new();
    let mut at = 0;
    while let Some(read) = read_event(sheet, &mut at) {
        let answer = match read {
            Ok(event) => machine.call(&event),
            Err(number) => Answer::Refused { number: u64::from(number) },
        };
        answers.push(answer);
        if matches!(answer, Answer::Refused { number: 1..=3 }) {
            break;
        }
    }
    answers
}

/// The answers of a run with a lent report. 1, then 17, leave the report as lent;
/// else it grows by the waits of the run, whether 2 or 3 ended it or not.
pub fn run_with_report(machine: &mut Machine, sheet: &[u8], report: &mut Report) -> Vec<Answer> {
    if refuse_1_line_not_sound(&machine.line, machine.book.len()) {
        return vec![Answer::Refused { number: 1 }];
    }
    if refuse_17_report_or_sheet_too_large(report, sheet.len()) {
        return vec![Answer::Refused { number: 17 }];
    }
    let answers = run(machine, sheet);
    report.grow(&list_of(sheet, &answers));
    answers
}

/// The events of a sheet with their answers; bytes that are no event are left out.
pub fn list_of(sheet: &[u8], answers: &[Answer]) -> Vec<Said> {
    let mut list = Vec::new();
    let mut at = 0;
    for &answer in answers {
        let Some(Ok(event)) = read_event(sheet, &mut at) else { break };
        list.push((event, answer));
    }
    list
}
