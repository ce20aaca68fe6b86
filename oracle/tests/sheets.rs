//! What the generator promises, and what every made-up sheet must show.

use oracle_lib::answer::Answer;
use oracle_lib::cover::{kinds, Cover};
use oracle_lib::ends::END_SORTS;
use oracle_lib::event::{read_event, Event};
use oracle_lib::line::{Machine, Search};
use oracle_lib::make::{all_cuts, sheet, sort_of, Sort};
use oracle_lib::refuse::refuse_1_line_not_sound;
use oracle_lib::report::Said;
use oracle_lib::sheet::{list_of, print_sheet, run, MOST_SHEET};
use std::collections::BTreeSet;

#[test]
fn every_cut_of_every_kind_comes() {
    assert_eq!(all_cuts().len(), 87);
    let mut seen = BTreeSet::new();
    for k in (0..22 * 48).filter(|&k| sort_of(k) == Sort::Cut) {
        let sheet = sheet(3, k);
        let mut at = 0;
        while let Some(Ok(_)) = read_event(&sheet, &mut at) {}
        seen.insert((sheet[at], sheet.len() - at));
    }
    assert_eq!(seen.into_iter().collect::<Vec<_>>(), all_cuts());
}

#[test]
fn lengths_come_as_promised() {
    for k in 0..192 {
        let sheet = sheet(3, k);
        match sort_of(k) {
            Sort::Empty => assert!(sheet.is_empty()),
            Sort::Full => assert_eq!(sheet.len(), 65_536),
            Sort::TooLong => assert!(sheet.len() >= 65_537),
            Sort::Unlisted => assert_eq!(kinds(&sheet).last(), Some(&0)),
            _ => assert!(sheet.len() <= 65_536),
        }
    }
}

/// The events and answers of 480 sheets; those that are too long are left out.
fn lists(seed: u64) -> Vec<Vec<Said>> {
    let sheets = (0..480).map(|k| sheet(seed, k)).filter(|sheet| sheet.len() <= MOST_SHEET);
    let list = |sheet: Vec<u8>| {
        let answers = run(&mut Machine::new(Search::AfterReleaser), &sheet);
        list_of(&sheet, &answers)
    };
    sheets.map(list).collect()
}

#[test]
fn lanes_come_as_promised() {
    let (mut accepted, mut refused) = (BTreeSet::new(), BTreeSet::new());
    for (event, answer) in lists(3).into_iter().flatten() {
        match (event, answer) {
            (Event::Open { lanes, .. }, Answer::Open { .. }) => accepted.insert(lanes),
            (Event::Open { lanes, .. }, Answer::Refused { number: 6 }) => refused.insert(lanes),
            _ => false,
        };
    }
    let promised = [1, 2, 3, 12, 63, 64, 65, 127, 128];
    assert!(promised.iter().all(|lanes| accepted.contains(lanes)), "{accepted:?}");
    let between = accepted.range(66..=126).count();
    assert!(between > 10, "{accepted:?}");
    assert_eq!(refused, BTreeSet::from([0, 129, 130, 255]));
}

/// The lanes named on lines of N lanes: those of accepted events, and those that got 8.
fn lanes_named(lists: &[Vec<Said>], n: u64) -> (BTreeSet<usize>, BTreeSet<usize>) {
    let (mut accepted, mut eight) = (BTreeSet::new(), BTreeSet::new());
    for list in lists {
        let mut open = false;
        for (event, answer) in list {
            if let Answer::Open { lanes, .. } = answer {
                open = *lanes == n;
            }
            let Some(lane) = event.lane().filter(|_| open) else { continue };
            match answer {
                Answer::Refused { number: 8 } => eight.insert(lane),
                Answer::Refused { .. } => false,
                _ => accepted.insert(lane),
            };
        }
    }
    (accepted, eight)
}

#[test]
fn events_name_lanes_about_64_and_128() {
    let lists = lists(3);
    let all = |set: &BTreeSet<usize>, lanes: &[usize]| lanes.iter().all(|lane| set.contains(lane));
    let (accepted, eight) = lanes_named(&lists, 64);
    assert_eq!(accepted, (0..64).collect());
    assert!(all(&eight, &[64, 65, 127, 128, 129, 255]), "{eight:?}");
    let (accepted, eight) = lanes_named(&lists, 65);
    assert_eq!(accepted, (0..65).collect());
    assert!(all(&eight, &[65, 66, 127, 128, 129, 255]), "{eight:?}");
    let (accepted, eight) = lanes_named(&lists, 128);
    assert_eq!(accepted, (0..128).collect());
    assert_eq!(eight, BTreeSet::from([128, 129, 255]));
}

/// Every call leaves a sound line, and a refused one leaves line and book alone.
#[test]
fn sound_all_along_and_refusals_change_nothing() {
    for k in (0..192).filter(|&k| sort_of(k) != Sort::Full && sort_of(k) != Sort::LongWalk) {
        let sheet = sheet(5, k);
        let mut machine = Machine::new(Search::AfterReleaser);
        let mut at = 0;
        while let Some(Ok(event)) = read_event(&sheet, &mut at) {
            if sheet.len() > 3_000 {
                break;
            }
            let before = machine.clone();
            let answer = machine.call(&event);
            assert!(!refuse_1_line_not_sound(&machine.line, machine.book.len()));
            if matches!(answer, Answer::Refused { .. }) {
                assert_eq!((&before.line, &before.book), (&machine.line, &machine.book));
            }
        }
    }
}

#[test]
fn events_write_back_the_same_bytes() {
    for k in 0..96 {
        let sheet = sheet(9, k);
        let (mut at, mut before) = (0, 0);
        while let Some(Ok(event)) = read_event(&sheet, &mut at) {
            assert_eq!(event.to_bytes(), &sheet[before..at]);
            before = at;
        }
    }
}

#[test]
fn answers_read_back_the_same() {
    for k in 0..96 {
        let printed = print_sheet(&sheet(9, k), Search::AfterReleaser);
        for line in String::from_utf8(printed).unwrap().lines() {
            let (number, rest) = line.split_once(' ').unwrap();
            if number != "end" && line != "sheet too long" {
                assert_eq!(Answer::parse(rest).expect(line).text(), rest);
            }
        }
    }
}

/// Nothing is left unhit, and each sort of seek to the end comes in 50 events and in 10 sheets, or more.
#[test]
fn a_whole_round_of_cuts_hits_everything() {
    let mut cover = Cover::default();
    for k in 0..22 * 48 {
        if sort_of(k) == Sort::Full || sort_of(k) == Sort::LongWalk {
            continue; // slow, and nothing should rest on them alone
        }
        let sheet = sheet(2, k);
        let printed = print_sheet(&sheet, Search::AfterReleaser);
        cover.count(&sheet, &printed).unwrap();
    }
    assert_eq!(cover.faults(), Vec::<String>::new());
    for (name, _) in END_SORTS {
        let hits = cover.ends[name];
        assert!(hits.events >= 50 && hits.sheets >= 10, "{name}:\n{}", cover.table());
    }
}
