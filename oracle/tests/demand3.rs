//! `demand3` passes what is right and catches what is planted.

use oracle_lib::demand3::{check, Breach, Tally};
use oracle_lib::event::Event;
use oracle_lib::line::Search;
use oracle_lib::make::sheet;
use oracle_lib::sheet::print_sheet;

fn sheet_of(events: &[Event]) -> Vec<u8> {
    events.iter().flat_map(Event::to_bytes).collect()
}

fn checked(sheet: &[u8], search: Search) -> Result<(), Breach> {
    check(sheet, &print_sheet(sheet, search), &mut Tally::default())
}

/// Lane 0 wants again at once; lane 2 is due by the second release.
fn starving() -> Vec<u8> {
    let want = |lane| Event::Want { lane, purpose: 0 };
    let take = |lane| Event::Take { lane, count: 0 };
    let receive = |lane| Event::Receive { lane };
    let mut events = vec![Event::Open { lanes: 3, capacity: 64 }];
    events.extend([want(0), want(2), want(1), take(0), want(0)]);
    events.extend([receive(1), take(1)]);
    sheet_of(&events)
}

#[test]
fn search_from_lane_zero_is_caught() {
    checked(&starving(), Search::AfterReleaser).unwrap();
    let breach = checked(&starving(), Search::FromLaneZero).unwrap_err();
    assert_eq!(breach.event, Some(7));
    assert!(breach.sentence.contains("lane 2 waits on after release 2"), "{}", breach.sentence);
}

#[test]
fn search_from_lane_zero_is_caught_on_made_up_sheets() {
    let mut tally = Tally::default();
    let mut caught = 0;
    for k in 0..240 {
        let sheet = sheet(7, k);
        let printed = print_sheet(&sheet, Search::AfterReleaser);
        check(&sheet, &printed, &mut tally).unwrap();
        if checked(&sheet, Search::FromLaneZero).is_err() {
            caught += 1;
        }
    }
    assert!(caught > 20, "only {caught} sheets show it");
    assert!(tally.longest_d == 127 && tally.most_releases == 127 && tally.stretches > 200);
}

/// Lane 0 holds and all others wait, the last one first; then each has its turn up to 126.
fn longest_wait() -> Vec<u8> {
    let want = |lane| Event::Want { lane, purpose: 0 };
    let mut events = vec![Event::Open { lanes: 128, capacity: 64 }, want(0)];
    events.extend((1..128).rev().map(want));
    for lane in 0..127 {
        events.extend([Event::Take { lane, count: 0 }, Event::Receive { lane: lane + 1 }]);
    }
    sheet_of(&events)
}

#[test]
fn the_longest_wait_of_128_lanes() {
    let sheet = longest_wait();
    let mut tally = Tally::default();
    check(&sheet, &print_sheet(&sheet, Search::AfterReleaser), &mut tally).unwrap();
    assert_eq!((tally.waits, tally.wakes, tally.still_due), (127, 127, 0));
    assert_eq!((tally.longest_d, tally.most_releases, tally.releases), (127, 127, 127));
    let late = planted(&sheet, "region 0 0 wakes 127", "region 0 0 wakes none");
    assert_eq!(late, "lane 127 waits on after release 127, its wake was due by 127");
    let none = planted(&sheet, "region 0 0 wakes 127", "region 0 0 wakes 128");
    assert_eq!(none, "lane 128 of 128 is woken");
    let lanes = planted(&sheet, "open 128 64", "open 129 64");
    assert_eq!(lanes, "opened with 129 lanes");
}

/// What `demand3` says to a sheet with one printed text put for another.
fn planted(sheet: &[u8], right: &str, wrong: &str) -> String {
    let printed = String::from_utf8(print_sheet(sheet, Search::AfterReleaser)).unwrap();
    assert!(printed.contains(right), "{printed}");
    let changed = printed.replacen(right, wrong, 1);
    check(sheet, changed.as_bytes(), &mut Tally::default()).unwrap_err().sentence
}

#[test]
fn planted_wakes_are_caught() {
    let sheet = starving();
    let none = planted(&sheet, "region 0 0 wakes 1", "region 0 0 wakes none");
    assert!(none.contains("a lane waits while []") || none.contains("was due"), "{none}");
    let late = planted(&sheet, "region 0 0 wakes 1", "region 0 0 wakes 0");
    assert!(late.contains("not told to wait"), "{late}");
    let twice = planted(&sheet, "region 0 0 wakes 2", "region 0 0 wakes 1");
    assert!(twice.contains("second time"), "{twice}");
    let two = planted(&sheet, "5 waits", "5 holds 0");
    assert!(two.contains("a lane waits while [0, 1]"), "{two}");
    let first = planted(&sheet, "2 waits", "2 holds 0");
    assert!(first.contains("is told to wait while"), "{first}");
}

fn handing_out() -> Vec<u8> {
    sheet_of(&[
        Event::Open { lanes: 2, capacity: 256 },
        Event::Want { lane: 0, purpose: 1 },
        Event::Take { lane: 0, count: 3 },
        Event::Want { lane: 1, purpose: 1 },
        Event::Take { lane: 1, count: 1 },
        Event::Read { lane: 1 },
        Event::Read { lane: 0 },
        Event::Read { lane: 0 },
        Event::Read { lane: 0 },
        Event::Seek { whence: 1, offset: 2 },
        Event::Enter { lane: 1, count: 4 },
        Event::Enter { lane: 0, count: 1 },
    ])
}

#[test]
fn planted_places_are_caught() {
    let sheet = handing_out();
    checked(&sheet, Search::AfterReleaser).unwrap();
    for (right, wrong, part) in [
        ("region 0 3", "region 0 2", "a take of 3 is given a region of 2"),
        ("holds 3", "holds 0", "`holds` tells of pointer 0"),
        ("region 3 1", "region 2 1", "places from 2 are handed out where 3 is next"),
        ("seek 6", "seek 7", "a seek by 2 to 7"),
        ("ordered 6 5", "ordered 5 5", "places from 5 are handed out"),
        ("ordered 6 5", "ordered 6 4", "tells of 4"),
        ("end 0 11", "end 0 12", "`end` tells of pointer 12"),
    ] {
        let said = planted(&sheet, right, wrong);
        assert!(said.contains(part), "{right} -> {wrong}: {said}");
    }
}

/// A second wake for one wait, and a lane woken twice while another waits.
#[test]
fn a_lane_woken_twice_beside_a_waiter_is_caught() {
    let want = |lane| Event::Want { lane, purpose: 0 };
    let take = |lane| Event::Take { lane, count: 0 };
    let mut events = vec![Event::Open { lanes: 5, capacity: 64 }];
    // 0 holds, 4 waits with d = 4; then 1 and 0 take turns as a wrong line might let them
    events.extend([want(0), want(4), want(1), take(0), Event::Receive { lane: 1 }]);
    events.extend([want(0), take(1), Event::Receive { lane: 0 }, want(1), take(0)]);
    let sheet = sheet_of(&events);
    let printed = print_sheet(&sheet, Search::FromLaneZero);
    let breach = check(&sheet, &printed, &mut Tally::default()).unwrap_err();
    assert_eq!(breach.event, Some(10));
    assert!(breach.sentence.contains("lane 1 is woken twice while lane 4 waits"));
}
