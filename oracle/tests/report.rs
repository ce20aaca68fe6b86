//! The sentences of Wish 1 on hand-made sheets, each able to fail by a planted mistake.

mod counter;

use counter::{counted, outcome, Mistake, MISTAKES};
use oracle_lib::answer::Answer;
use oracle_lib::event::Event;
use oracle_lib::group::{left_bytes, Group};
use oracle_lib::line::{Machine, Search};
use oracle_lib::make::sheet;
use oracle_lib::report::{waits, Report, Row, Said, Wait, FULL, REPORT_BYTES};
use oracle_lib::sheet::{print_sheet, print_sheet_with_report, run, run_with_report, MOST_SHEET};

/// The last lane's row and the row for all, of 129 rows (Wish 2).
const LAST: usize = 127;
const ALL: usize = 128;
/// First row, middle ones with those about 64, last row and the row for all.
const ROWS: [usize; 6] = [0, 31, 63, 64, LAST, ALL];

fn open(lanes: u8) -> Event {
    Event::Open { lanes, capacity: 64 }
}

fn want(lane: u8) -> Event {
    Event::Want { lane, purpose: 0 }
}

fn want_book(lane: u8) -> Event {
    Event::Want { lane, purpose: 2 }
}

fn receive(lane: u8) -> Event {
    Event::Receive { lane }
}

fn take(lane: u8) -> Event {
    Event::Take { lane, count: 0 }
}

fn free(lane: u8) -> Event {
    Event::Free { lane }
}

fn bytes(events: &[Event]) -> Vec<u8> {
    events.iter().flat_map(Event::to_bytes).collect()
}

fn row(times: u64, sum: u64, largest: u64, unended: u64) -> Row {
    Row { times, sum, largest, unended }
}

/// The report with these rows of lanes, and this row for all.
fn report(lanes: &[(usize, Row)], all: Row) -> Report {
    let mut report = Report { all, ..Report::no_waiting() };
    for &(lane, row) in lanes {
        report.lanes[lane] = row;
    }
    report
}

fn printed(sheet: &[u8], report: &mut Report) -> String {
    String::from_utf8(print_sheet_with_report(sheet, Search::AfterReleaser, report)).unwrap()
}

/// The report left by sheets that each start from an unopened line, over no waiting.
fn grown(sheets: &[Vec<u8>]) -> Report {
    let mut report = Report::no_waiting();
    for sheet in sheets {
        assert!(!printed(sheet, &mut report).contains("refused 17"));
    }
    report
}

fn grown_by(events: &[Event]) -> Report {
    grown(&[bytes(events)])
}

/// The events with the answers that a line gives them.
fn list(machine: &mut Machine, events: &[Event]) -> Vec<Said> {
    events.iter().map(|event| (*event, machine.call(event))).collect()
}

// ---- what a wait counts ----

/// Lane 1 waits for one release, with lane 0's release and without it.
fn told() -> Vec<Event> {
    vec![open(2), want(0), want(1)]
}

#[test]
fn times_is_counted_at_the_wake() {
    let told_alone = row(0, 0, 0, 1);
    assert_eq!(grown_by(&told()), report(&[(1, told_alone)], told_alone));
    let woken = [told(), vec![take(0)]].concat();
    let once = row(1, 1, 1, 0);
    assert_eq!(grown_by(&woken), report(&[(1, once)], once));
    let received = [woken, vec![receive(1), take(1)]].concat();
    assert_eq!(grown_by(&received), report(&[(1, once)], once));
}

/// Lane 0 holds, 1 and 2 wait; lane 2 is woken by the second release.
fn two_wait() -> Vec<Event> {
    vec![open(3), want(0), want(2), want(1), take(0), receive(1), take(1)]
}

#[test]
fn the_waking_release_is_included() {
    let wanted = report(&[(1, row(1, 1, 1, 0)), (2, row(1, 2, 2, 0))], row(2, 3, 2, 0));
    assert_eq!(grown_by(&two_wait()), wanted);
}

/// Lane 2 has seen a release but no wake.
fn one_is_left() -> Vec<Event> {
    vec![open(3), want(0), want(2), want(1), take(0)]
}

#[test]
fn unended_waits_stand_apart() {
    let wanted = report(&[(1, row(1, 1, 1, 0)), (2, row(0, 0, 0, 1))], row(1, 1, 1, 1));
    assert_eq!(grown_by(&one_is_left()), wanted);
}

#[test]
fn releases_before_the_answer_are_left_out() {
    let events = [open(2), want(0), take(0), want(1), take(1), want(0), want(1), take(0)];
    assert_eq!(grown_by(&events), report(&[(1, row(1, 1, 1, 0))], row(1, 1, 1, 0)));
}

/// Frees and takes in one wait: lane 3 waits for a free, a take and a free.
fn frees_and_takes() -> Vec<Event> {
    let mut events = vec![open(4), want_book(0), want_book(3), want(1), want_book(2)];
    events.extend([free(0), receive(1), Event::Take { lane: 1, count: 3 }, receive(2), free(2)]);
    events
}

#[test]
fn frees_count_as_takes_do() {
    let rows = [(1, row(1, 1, 1, 0)), (2, row(1, 2, 2, 0)), (3, row(1, 3, 3, 0))];
    assert_eq!(grown_by(&frees_and_takes()), report(&rows, row(3, 6, 3, 0)));
}

/// Takes and frees with 8, 13 and 16, none of them a release.
fn with_refused() -> Vec<Event> {
    let mut events = vec![open(2), want(0), want(1)];
    events.extend([take(1), free(0), free(1), take(2), Event::Take { lane: 0, count: 9 }]);
    events.push(take(0));
    events
}

#[test]
fn refused_releases_do_not_count() {
    assert_eq!(grown_by(&with_refused()), report(&[(1, row(1, 1, 1, 0))], row(1, 1, 1, 0)));
}

/// Lane 1 waits for two releases, then for one, then to the end.
fn waits_three_times() -> Vec<Event> {
    let mut events = vec![open(3), want(2), want(0), want(1), take(2), receive(0), take(0)];
    events.extend([want(0), receive(1), take(1), want(1), receive(0), take(0)]);
    events.extend([receive(1), want(2), take(1), want(1)]);
    events
}

#[test]
fn a_lane_waits_again() {
    let rows = [(0, row(2, 2, 1, 0)), (1, row(2, 3, 2, 1)), (2, row(1, 1, 1, 0))];
    assert_eq!(grown_by(&waits_three_times()), report(&rows, row(5, 6, 2, 1)));
}

/// All lanes want, and each but the last releases in turn.
fn each_waits_for_those_below(lanes: u8) -> Vec<Event> {
    let mut events = vec![open(lanes)];
    events.extend((0..lanes).map(want));
    for lane in 0..lanes - 1 {
        events.extend([take(lane), receive(lane + 1)]);
    }
    events
}

#[test]
fn the_longest_wait_of_64_lanes() {
    let left = grown_by(&each_waits_for_those_below(64));
    assert_eq!((left.lanes[0], left.lanes[63]), (row(0, 0, 0, 0), row(1, 63, 63, 0)));
    assert_eq!((left.lanes[64], left.lanes[LAST]), (row(0, 0, 0, 0), row(0, 0, 0, 0)));
    assert_eq!(left.all, row(63, 2_016, 63, 0));
}

#[test]
fn the_longest_wait_of_128_lanes() {
    let events = each_waits_for_those_below(128);
    let left = grown_by(&events);
    assert_eq!((left.lanes[0], left.lanes[63]), (row(0, 0, 0, 0), row(1, 63, 63, 0)));
    assert_eq!((left.lanes[64], left.lanes[LAST]), (row(1, 64, 64, 0), row(1, 127, 127, 0)));
    assert_eq!(left.all, row(127, 8_128, 127, 0));
    let left = grown_by(&events[..events.len() - 2]);
    assert_eq!((left.lanes[126], left.lanes[LAST]), (row(1, 126, 126, 0), row(0, 0, 0, 1)));
    assert_eq!(left.all, row(126, 8_001, 126, 1));
}

// ---- waits from before the run ----

#[test]
fn a_wake_without_its_wait_is_left_out() {
    let whole = list(&mut Machine::new(Search::AfterReleaser), &two_wait());
    let (lane_2, lane_1) =
        (Wait { lane: 2, releases: Some(2) }, Wait { lane: 1, releases: Some(1) });
    assert_eq!(waits(&whole), [lane_2, lane_1]);
    assert_eq!(waits(&whole[3..]), [lane_1]);
    assert_eq!(waits(&whole[4..]), []);
    assert_eq!(waits(&whole[..5]), [Wait { lane: 2, releases: None }, lane_1]);
}

/// A list need not come from a sound line: a release counts whichever lane it wakes, or none.
#[test]
fn every_accepted_release_of_a_list_counts() {
    let region = |wakes| Answer::Region { start: 0, count: 0, wakes };
    let list = [
        (want(4), Answer::Waits),
        (take(0), region(None)),
        (free(1), Answer::Freed { wakes: Some(2) }),
        (take(2), Answer::Refused { number: 13 }),
        (take(3), region(Some(4))),
        (take(4), region(Some(4))),
    ];
    assert_eq!(waits(&list), [Wait { lane: 4, releases: Some(3) }]);
}

#[test]
fn a_run_leaves_out_the_waits_told_before_it() {
    let mut machine = Machine::new(Search::AfterReleaser);
    run(&mut machine, &bytes(&[open(3), want(0), want(1), want(2)]));
    let mut left = Report::no_waiting();
    run_with_report(&mut machine, &bytes(&[take(0)]), &mut left);
    assert_eq!(left, Report::no_waiting());
    let next = [want(0), receive(1), take(1), want(1), receive(2), take(2)];
    run_with_report(&mut machine, &bytes(&next), &mut left);
    let rows = [(0, row(1, 2, 2, 0)), (1, row(0, 0, 0, 1))];
    assert_eq!(left, report(&rows, row(1, 2, 2, 1)));
}

// ---- many runs, one report ----

#[test]
fn two_runs_over_one_report_add_up() {
    let left = grown(&[bytes(&two_wait()), bytes(&one_is_left()), Vec::new()]);
    let wanted = report(&[(1, row(2, 2, 1, 0)), (2, row(1, 2, 2, 1))], row(3, 4, 2, 1));
    assert_eq!(left, wanted);
}

#[test]
fn a_wait_ends_with_its_sheet() {
    let second = [open(2), want(0), take(0)];
    let left = grown(&[bytes(&told()), bytes(&second)]);
    assert_eq!(left, report(&[(1, row(0, 0, 0, 1))], row(0, 0, 0, 1)));
}

#[test]
fn the_row_for_all_grows_from_its_own_values() {
    let mut left = report(&[(2, row(10, 20, 1, 5))], row(3, 7, 9, 0));
    printed(&bytes(&two_wait()), &mut left);
    let rows = [(1, row(1, 1, 1, 0)), (2, row(11, 22, 2, 5))];
    assert_eq!(left, report(&rows, row(5, 10, 9, 0)));
}

#[test]
fn a_run_ended_by_2_or_3_keeps_its_growth() {
    let wanted = grown_by(&one_is_left());
    for end in [&[0x0D][..], &[0x00, 0x03, 0x01, 0x04, 0x01, 0x00, 0x00], &[0x04, 0x01, 0x00]] {
        let sheet = [bytes(&one_is_left()), end.to_vec()].concat();
        let mut left = Report::no_waiting();
        let text = printed(&sheet, &mut left);
        assert!(text.contains("5 refused 2\nend") || text.contains("5 refused 3\nend"), "{text}");
        assert_eq!(left, wanted);
    }
}

// ---- 17 ----

/// A report of one number; row 128 is the one for all.
fn with_number(place: usize, field: usize, number: u64) -> Report {
    let mut bytes = Report::no_waiting().to_bytes();
    let at = place * 32 + field * 8;
    bytes[at..at + 8].copy_from_slice(&number.to_be_bytes());
    Report::of_bytes(&bytes).unwrap()
}

#[test]
fn seventeen_at_every_number() {
    let ordinary = bytes(&two_wait());
    for (place, field) in ROWS.iter().flat_map(|&row| (0..4).map(move |f| (row, f))) {
        for number in [FULL, u64::MAX] {
            for sheet in [&ordinary[..], &[], &[0x0D], &[0x01]] {
                let lent = with_number(place, field, number);
                let mut left = lent.clone();
                assert_eq!(printed(sheet, &mut left), "0 refused 17\nend 0 0\n");
                assert_eq!(left, lent);
            }
        }
        let mut left = with_number(place, field, FULL - 1);
        assert_eq!(printed(&[], &mut left), "end 0 0\n");
        assert_eq!(left, with_number(place, field, FULL - 1));
        assert!(printed(&ordinary, &mut left).starts_with("0 open 3 64\n"));
    }
}

#[test]
fn numbers_grow_past_2_to_63_and_then_give_17() {
    let mut left = report(&[(1, row(FULL - 1, FULL - 1, 7, 0))], row(0, FULL - 1, 0, FULL - 1));
    assert!(printed(&bytes(&one_is_left()), &mut left).starts_with("0 open"));
    let rows = [(1, row(FULL, FULL, 7, 0)), (2, row(0, 0, 0, 1))];
    let wanted = report(&rows, row(1, FULL, 1, FULL));
    assert_eq!(left, wanted);
    assert_eq!(printed(&[], &mut left), "0 refused 17\nend 0 0\n");
    assert_eq!(left, wanted);
}

/// The largest does not grow past itself, so it never meets the edge by a run.
#[test]
fn a_largest_of_2_to_63_less_1_stays() {
    let mut left = report(&[(1, row(0, 0, FULL - 1, 0))], row(0, 0, FULL - 1, 0));
    for _ in 0..2 {
        assert!(printed(&bytes(&told()), &mut left).starts_with("0 open"));
    }
    assert_eq!(left.all, row(0, 0, FULL - 1, 2));
}

#[test]
fn seventeen_by_the_length_of_the_sheet() {
    let mut full = bytes(&two_wait());
    full.resize(MOST_SHEET, 0x03);
    let mut left = Report::no_waiting();
    assert!(printed(&full, &mut left).starts_with("0 open 3 64\n"));
    assert_eq!(left, grown_by(&two_wait()));
    full.push(0x03);
    assert_eq!(printed(&full, &mut left), "0 refused 17\nend 0 0\n");
    assert_eq!(left, grown_by(&two_wait()));
    let plain = print_sheet(&full, Search::AfterReleaser);
    assert_eq!(plain, b"sheet too long\n");
}

#[test]
fn one_comes_before_seventeen() {
    let lent = with_number(0, 0, FULL);
    for sheet in [vec![], bytes(&[want(0)]), vec![0; MOST_SHEET + 1]] {
        let mut machine = Machine::new(Search::AfterReleaser);
        machine.line.pointer = 1;
        let before = machine.line.clone();
        let mut left = lent.clone();
        assert_eq!(
            run_with_report(&mut machine, &sheet, &mut left),
            [Answer::Refused { number: 1 }]
        );
        assert_eq!((&machine.line, &left), (&before, &lent));
        machine.line.pointer = 0;
        assert_eq!(
            run_with_report(&mut machine, &sheet, &mut left),
            [Answer::Refused { number: 17 }]
        );
        assert_eq!(left, lent);
    }
}

#[test]
fn one_leaves_the_report_as_lent() {
    let mut machine = Machine::new(Search::AfterReleaser);
    list(&mut machine, &told());
    machine.line.flags[1] = 0;
    let mut left = grown_by(&two_wait());
    assert_eq!(run_with_report(&mut machine, &[], &mut left), [Answer::Refused { number: 1 }]);
    assert_eq!(left, grown_by(&two_wait()));
}

#[test]
fn seventeen_leaves_an_open_line_and_its_book() {
    let mut machine = Machine::new(Search::AfterReleaser);
    list(&mut machine, &told());
    let before = machine.clone();
    let mut left = with_number(ALL, 3, FULL);
    let sheet = bytes(&[take(0)]);
    assert_eq!(run_with_report(&mut machine, &sheet, &mut left), [Answer::Refused { number: 17 }]);
    assert_eq!((machine.line, machine.book), (before.line, before.book));
}

// ---- means, table, bytes, printed lines ----

#[test]
fn means_and_remainders() {
    let told = |row: Row| (row.mean(), row.remainder());
    assert_eq!(told(row(3, 5, 2, 0)), (1, 2));
    assert_eq!(told(row(3, 6, 4, 9)), (2, 0));
    assert_eq!(told(row(7, 6, 1, 0)), (0, 6));
    assert_eq!(told(row(0, 0, 0, 4)), (0, 0));
    assert_eq!(told(row(0, 5, 5, 0)), (0, 0));
    assert_eq!(told(row(2, u64::MAX, 0, 0)), (FULL - 1, 1));
}

#[test]
fn the_table() {
    let header = "lane     times       sum   largest      mean remainder   unended\n";
    let three = report(&[(0, row(3, 5, 2, 0))], row(3, 5, 2, 0));
    let lines = "   0         3         5         2         1         2         0\n \
                 all         3         5         2         1         2         0\n";
    assert_eq!(three.table(), format!("{header}{lines}"));
    let none = " all         0         0         0         0         0         0\n";
    assert_eq!(Report::no_waiting().table(), format!("{header}{none}"));
}

#[test]
fn the_table_names_lanes_with_times_or_unended_alone() {
    let mut rows = vec![(1, row(0, 9, 9, 0)), (12, row(0, 0, 0, 3)), (64, row(0, 0, 0, 1))];
    rows.extend([99, 100, LAST].map(|lane| (lane, row(1, 4, 4, 0))));
    let table = report(&rows, row(3, 12, 4, 4)).table();
    let names: Vec<&str> = table.lines().map(|line| &line[..4]).collect();
    assert_eq!(names, ["lane", "  12", "  64", "  99", " 100", " 127", " all"]);
    let long = report(&[], row(12_345_678_901, u64::MAX, 0, 0)).table();
    let wanted =
        " all 12345678901 18446744073709551615         0 1494186283 5512836632         0\n";
    assert_eq!(long.split_inclusive('\n').nth(1), Some(wanted));
}

#[test]
fn a_report_as_bytes() {
    let rows = [(0, row(1, 2, 3, 4)), (64, row(13, 14, 15, 16)), (LAST, row(5, 6, 7, 8))];
    let mut left = report(&rows, row(9, 10, 11, 12));
    left.lanes[1].times = 0x0102_0304_0506_0708;
    let bytes = left.to_bytes();
    assert_eq!((bytes.len(), REPORT_BYTES), (4_128, 4_128));
    assert_eq!((bytes[7], bytes[15], bytes[23], bytes[31]), (1, 2, 3, 4));
    assert_eq!(bytes[32..40], [1, 2, 3, 4, 5, 6, 7, 8]);
    let last = |at: usize| bytes[at * 8 + 7];
    assert_eq!([last(256), last(257), last(258), last(259)], [13, 14, 15, 16]);
    assert_eq!([last(508), last(509), last(510), last(511)], [5, 6, 7, 8]);
    assert_eq!([last(512), last(513), last(514), last(515)], [9, 10, 11, 12]);
    assert_eq!(Report::of_bytes(&bytes), Some(left));
    assert_eq!(Report::of_bytes(&bytes[..4_127]), None);
    assert_eq!(Report::of_bytes(&bytes[..2_080]), None);
}

#[test]
fn a_group_as_bytes_and_what_it_leaves() {
    let sheets = vec![bytes(&told()), Vec::new(), vec![3; MOST_SHEET + 1]];
    let group = Group { report: with_number(5, 1, 77), sheets };
    let whole = group.to_bytes().unwrap();
    assert_eq!(Group::of_bytes(&whole).unwrap(), group);
    for cut in [0, 2_080, 4_127, 4_129, 4_128 + 4 + 11, whole.len() - 1] {
        assert!(Group::of_bytes(&whole[..cut]).is_err(), "{cut}");
    }
    let mut group = group;
    let texts = group.run();
    assert_eq!(texts[0], b"0 open 2 64\n1 holds 0\n2 waits\nend 0 0\n");
    assert_eq!(
        (&texts[1][..], &texts[2][..]),
        (&b"end 0 0\n"[..], &b"0 refused 17\nend 0 0\n"[..])
    );
    let left = left_bytes(&texts, &group.report).unwrap();
    let head = 12 + texts.iter().map(Vec::len).sum::<usize>();
    assert_eq!(left[..5], [0, 0, 0, texts[0].len() as u8, b'0']);
    assert_eq!(Report::of_bytes(&left[head..]), Some(group.report));
}

/// A report that is lent changes no printed line, but for 17.
#[test]
fn a_report_changes_no_line() {
    for k in 0..144 {
        let sheet = sheet(11, k);
        let mut left = Report::no_waiting();
        let with = print_sheet_with_report(&sheet, Search::AfterReleaser, &mut left);
        let without = print_sheet(&sheet, Search::AfterReleaser);
        if sheet.len() > MOST_SHEET {
            assert_eq!(
                (&with[..], &left),
                (&b"0 refused 17\nend 0 0\n"[..], &Report::no_waiting())
            );
        } else {
            assert_eq!(with, without);
        }
    }
}

// ---- planted mistakes ----

/// The hand-made groups of this file, as the planted mistakes are tried on them.
fn hand_made() -> Vec<Group> {
    let over = |report: &Report, sheets: &[Vec<u8>]| {
        let sheets = sheets.to_vec();
        Group { report: report.clone(), sheets }
    };
    let none = Report::no_waiting();
    let cut = [bytes(&one_is_left()), vec![0x0D]].concat();
    let mut full = bytes(&two_wait());
    full.resize(MOST_SHEET, 0x03);
    let longer = [full.clone(), vec![0x03]].concat();
    let mut groups = Vec::new();
    for events in [told(), two_wait(), one_is_left(), frees_and_takes()] {
        groups.push(over(&none, &[bytes(&events)]));
    }
    groups.push(over(&none, &[bytes(&with_refused()), bytes(&waits_three_times())]));
    groups.push(over(&none, &[bytes(&told()), bytes(&[open(2), want(0), take(0)])]));
    groups.push(over(&report(&[(2, row(10, 20, 1, 5))], row(3, 7, 9, 0)), &[bytes(&two_wait())]));
    groups.push(over(&none, &[cut, full, longer]));
    groups.push(over(&none, &[bytes(&each_waits_for_those_below(128))]));
    for place in ROWS {
        for field in 0..4 {
            groups.push(over(&with_number(place, field, FULL), &[Vec::new(), bytes(&two_wait())]));
            groups.push(over(&with_number(place, field, FULL - 1), &[bytes(&two_wait())]));
        }
    }
    groups
}

#[test]
fn planted_mistakes_are_noticed_on_hand_made_sheets() {
    let groups = hand_made();
    let noticed = |mistake| groups.iter().any(|group| counted(group, mistake) != outcome(group));
    assert!(!noticed(Mistake::None));
    for mistake in MISTAKES {
        assert!(noticed(mistake), "{mistake:?}");
    }
}
