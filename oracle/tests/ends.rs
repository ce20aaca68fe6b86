//! The sorts of seeks to the end, and the wrong counts that made-up sheets must show.

use oracle_lib::answer::Answer;
use oracle_lib::cover::Cover;
use oracle_lib::ends::{end_seeks, EndSeek, END_SORTS};
use oracle_lib::line::{Machine, Search, View};
use oracle_lib::make::{sheet, sort_of, Sort};
use oracle_lib::sheet::{list_of, run};

fn view(displacement: u32, extent: u16, blocks: &[(u16, u16)]) -> View {
    let mut list = [(0, 0); 8];
    list[..blocks.len()].copy_from_slice(blocks);
    View { displacement, extent, blocks: blocks.len() as u8, list }
}

fn edge_view() -> View {
    view(4, 5, &[(1, 2), (4, 1)])
}

// ---- the sorts ----

/// The names of the sorts of a seek by this offset; refused with 15 where the pointer cannot be.
fn sorts(view: View, size: u32, offset: i32) -> Vec<&'static str> {
    let target = view.places_below(size) as i64 + i64::from(offset);
    let answer = match u64::try_from(target) {
        Ok(pointer @ 0..=65_536) => Answer::Seek { pointer },
        _ => Answer::Refused { number: 15 },
    };
    let seek = EndSeek { view, size, offset, answer };
    END_SORTS.iter().filter(|(_, is_of)| is_of(&seek)).map(|(name, _)| *name).collect()
}

#[test]
fn every_sort_says_what_its_name_says() {
    let (plain, shifted) = (View::plain(), view(24, 2, &[(0, 1)]));
    assert_eq!(sorts(plain, 0, 0), [""; 0]);
    assert_eq!(sorts(plain, 24, 0), [""; 0]);
    assert_eq!(sorts(plain, 25, 0), ["plain, size no multiple of 8", "the last record is cut"]);
    assert_eq!(sorts(plain, 24, -4), [""; 0]);
    assert_eq!(sorts(edge_view(), 24, 0), ["gaps, not size / 8", "the last record is cut"]);
    assert_eq!(sorts(edge_view(), 32, 0), ["gaps, not size / 8", "gaps, the size lies in one"]);
    assert_eq!(sorts(edge_view(), 28, 0), ["gaps, not size / 8", "gaps, size no multiple of 8"]);
    assert_eq!(
        sorts(edge_view(), 12, 0),
        [
            "gaps, not size / 8",
            "gaps, size no multiple of 8",
            "gaps, the size lies in one",
            "gaps, no place below"
        ]
    );
    assert_eq!(sorts(shifted, 24, 0), ["displacement at the size"]);
    assert_eq!(sorts(shifted, 23, 0), ["displacement past the size"]);
    assert_eq!(sorts(shifted, 0, 0), [""; 0]);
    assert_eq!(sorts(edge_view(), 24, -3), ["gaps, 15 below 0"]);
    assert_eq!(sorts(edge_view(), 24, 65_535), ["gaps, 15 above 65,536"]);
}

/// Every sort that no sheet holds is a fault by its name.
#[test]
fn a_sort_that_never_comes_is_a_fault() {
    let faults = Cover::default().faults();
    for (name, _) in END_SORTS {
        assert!(faults.contains(&format!("seek to the end `{name}` was never hit")), "{faults:?}");
    }
}

// ---- wrong counts ----

/// Whole tiles below a size, and the bytes that are left.
fn tiles(view: &View, size: u64) -> (u64, u64) {
    let bytes = size.saturating_sub(u64::from(view.displacement));
    let tile = 8 * u64::from(view.extent);
    (bytes / tile, bytes % tile)
}

/// A wrong count of the places, by what is wrong with it.
type Wrong = (&'static str, fn(&View, u32) -> u64);

const WRONG: [Wrong; 11] = [
    ("size / 8, as before", |_, size| u64::from(size / 8)),
    ("size / 8 rounded up in every view", |_, size| u64::from(size.div_ceil(8))),
    ("places of the tile without its gaps", |view, size| {
        u64::from(size.saturating_sub(view.displacement).div_ceil(8))
    }),
    ("records that end at or below the size", |view, size| {
        view.places_below(size.saturating_sub(7))
    }),
    ("records that start at or below the size", |view, size| view.places_below(size + 1)),
    ("the displacement left out", |view, size| {
        View { displacement: 0, ..*view }.places_below(size)
    }),
    ("the displacement rounded down to records", |view, size| {
        View { displacement: view.displacement / 8 * 8, ..*view }.places_below(size)
    }),
    ("whole tiles alone", |view, size| tiles(view, u64::from(size)).0 * view.shown()),
    ("a part of a tile as a whole one", |view, size| {
        let (whole, rest) = tiles(view, u64::from(size));
        (whole + u64::from(rest > 0)) * view.shown()
    }),
    ("a part of a tile as if its gaps came last", |view, size| {
        let (whole, rest) = tiles(view, u64::from(size));
        whole * view.shown() + rest.div_ceil(8).min(view.shown())
    }),
    ("one tile alone", |view, size| view.places_below(size).min(view.shown())),
];

/// The accepted seeks to the end in the walks among the first 1,056 sheets of a seed.
fn accepted_seeks(seed: u64) -> Vec<EndSeek> {
    let walks = (0..22 * 48).filter(|&k| sort_of(k) == Sort::Walk).map(|k| sheet(seed, k));
    let seeks = walks.flat_map(|walk| {
        let answers = run(&mut Machine::new(Search::AfterReleaser), &walk);
        end_seeks(&list_of(&walk, &answers))
    });
    seeks.filter(|seek| matches!(seek.answer, Answer::Seek { .. })).collect()
}

/// Each wrong count would put the pointer elsewhere 50 times and more.
#[test]
fn every_wrong_count_shows_often() {
    let seeks = accepted_seeks(2);
    for (name, wrong) in WRONG {
        let differs = |seek: &&EndSeek| wrong(&seek.view, seek.size) != seek.count();
        let shown = seeks.iter().filter(differs).count();
        assert!(shown >= 50, "{shown} of {} seeks show: {name}", seeks.len());
    }
}
