//! The proved run of a sheet over a lent report, by the safe functions over libembed.a.

pub use gudlemi::{Report, Row, LANES};

/// The printed lines of a sheet, stored at the start of `text`, and `report` grown; their length,
/// or the greatest number where `text` may be too short.
pub fn run(sheet: &[u8], book: &mut [u8], text: &mut [u8], report: &mut Report) -> usize {
    gudlemi::run_reported(sheet, book, text, report).unwrap_or(usize::MAX)
}

/// A length of `text` that is enough for any sheet of this length.
pub fn text_bound(sheet_length: usize) -> usize {
    gudlemi::text_bound(sheet_length).unwrap_or(usize::MAX)
}
