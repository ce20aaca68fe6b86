//! A group: a lent report and the sheets that are run over it, as bytes and run whole.

use crate::line::Search;
use crate::report::{Report, REPORT_BYTES};
use crate::sheet::print_sheet_with_report;
use crate::stream::{read_item, write_item};
use std::io;

#[derive(Clone, PartialEq, Eq, Debug)]
pub struct Group {
    pub report: Report,
    pub sheets: Vec<Vec<u8>>,
}

impl Group {
    /// The report's bytes, then each sheet preceded by its length.
    pub fn to_bytes(&self) -> io::Result<Vec<u8>> {
        let mut bytes = self.report.to_bytes();
        for sheet in &self.sheets {
            write_item(&mut bytes, sheet)?;
        }
        Ok(bytes)
    }

    /// The group of these bytes; an error if they are cut.
    pub fn of_bytes(bytes: &[u8]) -> io::Result<Group> {
        let head = bytes.get(..REPORT_BYTES).and_then(Report::of_bytes);
        let report = head.ok_or_else(|| io::Error::other("group cut inside its report"))?;
        let mut rest = &bytes[REPORT_BYTES..];
        let mut sheets = Vec::new();
        while let Some(sheet) = read_item(&mut rest)? {
            sheets.push(sheet);
        }
        Ok(Group { report, sheets })
    }

    /// Runs every sheet in order, each from an unopened line; gives their printed texts.
    pub fn run(&mut self) -> Vec<Vec<u8>> {
        let mut printed = Vec::new();
        for sheet in &self.sheets {
            let search = Search::AfterReleaser;
            printed.push(print_sheet_with_report(sheet, search, &mut self.report));
        }
        printed
    }
}

/// Each printed text preceded by its length, then the report as it was left.
pub fn left_bytes(printed: &[Vec<u8>], report: &Report) -> io::Result<Vec<u8>> {
    let mut bytes = Vec::new();
    for text in printed {
        write_item(&mut bytes, text)?;
    }
    bytes.extend(report.to_bytes());
    Ok(bytes)
}
