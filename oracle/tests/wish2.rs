//! The sentences of Wish 2 on hand-made sheets: lines of 65 to 128 lanes, and stored sheets.

use oracle_lib::event::Event;
use oracle_lib::line::{Line, Machine, Phase, Purpose, Search};
use oracle_lib::refuse::refuse_1_line_not_sound;
use oracle_lib::sheet::print_sheet;

const RECORD: [u8; 8] = [0, 0, 0, 0, 0, 0, 10, 188];
const BOOK: usize = 65_536;

fn open(lanes: u8, capacity: u32) -> Event {
    Event::Open { lanes, capacity }
}

fn want(lane: u8) -> Event {
    Event::Want { lane, purpose: 0 }
}

fn take(lane: u8, count: u16) -> Event {
    Event::Take { lane, count }
}

fn enter(lane: u8, count: u16) -> Event {
    Event::Enter { lane, count }
}

fn opened(lanes: u8, capacity: u32) -> Machine {
    let mut machine = Machine::new(Search::AfterReleaser);
    machine.call(&open(lanes, capacity));
    machine
}

fn say(machine: &mut Machine, event: Event) -> String {
    machine.call(&event).text()
}

/// The lines of a sheet of these events, with their numbers.
fn printed(events: &[Event]) -> Vec<String> {
    let sheet: Vec<u8> = events.iter().flat_map(Event::to_bytes).collect();
    let text = String::from_utf8(print_sheet(&sheet, Search::AfterReleaser)).unwrap();
    text.lines().map(String::from).collect()
}

// ---- openings ----

#[test]
fn lanes_1_to_128_open_and_no_others() {
    for lanes in 0..=255 {
        let said = say(&mut Machine::new(Search::AfterReleaser), open(lanes, 64));
        match lanes {
            1..=128 => assert_eq!(said, format!("open {lanes} 64")),
            _ => assert_eq!(said, "refused 6"),
        }
    }
}

/// 6 comes before 7; with 128 lanes 7 is left.
#[test]
fn six_comes_before_seven() {
    let said = printed(&[open(129, 7), open(128, 7), open(128, 8)]);
    assert_eq!(said, ["0 refused 6", "1 refused 7", "2 open 128 8", "end 0 0"]);
}

/// A stored sheet whose 01 with 65 lanes got 6 (then 4, and `open 2 64`) answers anew.
#[test]
fn a_stored_sheet_with_a_6_for_65_lanes_answers_anew() {
    let said = printed(&[open(65, 64), want(0), open(2, 64), want(2), want(64)]);
    let wanted = ["0 open 65 64", "1 holds 0", "2 refused 5", "3 waits", "4 waits", "end 0 0"];
    assert_eq!(said, wanted);
}

/// One with another 6, or with at most 64 lanes, answers as before.
#[test]
fn other_stored_sheets_answer_as_before() {
    let said = printed(&[open(0, 64), open(255, 64), want(0), open(64, 64), want(64), want(63)]);
    let wanted = ["0 refused 6", "1 refused 6", "2 refused 4", "3 open 64 64", "4 refused 8"];
    assert_eq!(said[..5], wanted);
    assert_eq!(said[5..], ["5 holds 0", "end 0 0"]);
}

// ---- lane 127 and lane 128 ----

#[test]
fn lane_127_makes_every_call() {
    let lane = 127;
    let said = printed(&[
        open(128, 64),
        want(lane),
        take(lane, 2),
        Event::Write { lane, record: RECORD },
        Event::Write { lane, record: RECORD },
        Event::Want { lane, purpose: 1 },
        take(lane, 1),
        Event::Read { lane },
        Event::Want { lane, purpose: 2 },
        Event::Put { lane, place: 5, record: RECORD },
        Event::Look { lane, place: 5 },
        Event::Free { lane },
        enter(lane, 1),
        enter(lane, 1),
    ]);
    let wanted = [
        "0 open 128 64",
        "1 holds 0",
        "2 region 0 2 wakes none",
        "3 wrote 0",
        "4 wrote 8",
        "5 holds 2",
        "6 region 2 1 wakes none",
        "7 none",
        "8 holds 3",
        "9 wrote 40",
        "10 record 0000000000000abc",
        "11 freed wakes none",
        "12 gathered",
        "13 refused 13",
        "end 48 3",
    ];
    assert_eq!(said, wanted);
}

/// Every call that names a lane, by this one.
fn calls_by(lane: u8) -> [Event; 9] {
    [
        want(lane),
        Event::Receive { lane },
        take(lane, 0),
        Event::Write { lane, record: RECORD },
        Event::Read { lane },
        Event::Put { lane, place: 0, record: RECORD },
        Event::Look { lane, place: 0 },
        Event::Free { lane },
        enter(lane, 0),
    ]
}

#[test]
fn lane_n_and_those_past_it_get_8() {
    for (lanes, past) in [(128, 128), (128, 129), (128, 255), (127, 127), (65, 65), (64, 64)] {
        let mut machine = opened(lanes, 64);
        let before = machine.line.clone();
        for event in calls_by(past) {
            assert_eq!(say(&mut machine, event), "refused 8", "{event:?} of {lanes}");
        }
        assert_eq!(machine.line, before);
    }
}

// ---- the next lane and the longest wait ----

/// What the take of a holder answers while these lanes wait, on a line of 128.
fn wakes(holder: u8, waiting: &[u8]) -> String {
    let mut machine = opened(128, 64);
    machine.call(&want(holder));
    for &lane in waiting {
        assert_eq!(say(&mut machine, want(lane)), "waits");
    }
    say(&mut machine, take(holder, 0))
}

#[test]
fn the_next_lane_is_found_across_the_middle() {
    assert_eq!(wakes(62, &[64, 63, 0]), "region 0 0 wakes 63");
    assert_eq!(wakes(63, &[127, 64, 62]), "region 0 0 wakes 64");
    assert_eq!(wakes(63, &[62, 127, 0]), "region 0 0 wakes 127");
    assert_eq!(wakes(64, &[63, 65, 0]), "region 0 0 wakes 65");
    assert_eq!(wakes(64, &[63]), "region 0 0 wakes 63");
    assert_eq!(wakes(126, &[127, 0]), "region 0 0 wakes 127");
    assert_eq!(wakes(127, &[64, 63]), "region 0 0 wakes 63");
    assert_eq!(wakes(0, &[127]), "region 0 0 wakes 127");
    assert_eq!(wakes(127, &[]), "region 0 0 wakes none");
}

/// One lane holds, the one below it waits, and so do all others of 128.
fn all_wait_for(holder: u8) -> Machine {
    let mut machine = opened(128, 64);
    assert_eq!(say(&mut machine, want(holder)), "holds 0");
    for steps in 1..128 {
        assert_eq!(say(&mut machine, want((holder + 128 - steps) % 128)), "waits");
    }
    machine
}

/// The lane below the holder is not woken after 126 releases, but by the 127th.
#[test]
fn the_longest_wait_is_127_releases() {
    for (holder, last) in [(0, 127), (127, 126), (64, 63), (65, 64)] {
        let mut machine = all_wait_for(holder);
        for release in 1..=126 {
            let (lane, next) = ((holder + release - 1) % 128, (holder + release) % 128);
            assert_eq!(say(&mut machine, take(lane, 0)), format!("region 0 0 wakes {next}"));
            assert_eq!(say(&mut machine, Event::Receive { lane: next }), "holds 0");
        }
        assert_eq!(say(&mut machine, Event::Receive { lane: last }), "refused 14");
        let lane = (last + 127) % 128;
        assert_eq!(say(&mut machine, take(lane, 0)), format!("region 0 0 wakes {last}"));
        assert_eq!(say(&mut machine, Event::Receive { lane: last }), "holds 0");
        assert_eq!(say(&mut machine, take(last, 0)), "region 0 0 wakes none");
    }
}

// ---- ordered calls ----

/// From lane 127 down, one record each: lane r writes at 8 x r, in any order.
#[test]
fn an_ordered_call_by_all_128_lanes() {
    let mut machine = opened(128, 1_024);
    for lane in (1..128).rev() {
        assert_eq!(say(&mut machine, enter(lane, 1)), "gathered");
    }
    assert_eq!(say(&mut machine, enter(0, 1)), "ordered 0 128");
    assert_eq!(machine.line.pointer, 128);
    for lane in (0..128).map(|step| ((step * 3 + 64) % 128) as u8) {
        let said = say(&mut machine, Event::Write { lane, record: RECORD });
        assert_eq!(said, format!("wrote {}", u32::from(lane) * 8));
    }
    assert_eq!((machine.line.size, machine.line.live()), (1_024, &[Phase::Idle; 128][..]));
}

/// Counts 0, 1 and 2 in turn: lane 127 starts after 42 times 3 and the 0 of lane 126.
#[test]
fn an_ordered_call_with_different_counts() {
    let mut machine = opened(128, 65_536);
    machine.call(&Event::Seek { whence: 0, offset: 10 });
    for lane in 0..127 {
        assert_eq!(say(&mut machine, enter(lane, u16::from(lane) % 3)), "gathered");
    }
    assert_eq!(say(&mut machine, enter(127, 1)), "ordered 10 127");
    let busy = |next, left| Phase::Busy { writing: true, next, left };
    assert_eq!(machine.line.phases[..3], [Phase::Idle, busy(10, 1), busy(11, 2)]);
    assert_eq!(machine.line.phases[63..66], [Phase::Idle, busy(73, 1), busy(74, 2)]);
    assert_eq!(machine.line.phases[126..], [Phase::Idle, busy(136, 1)]);
    assert_eq!(machine.line.pointer, 137);
}

/// Of 1,023 bytes the 128th record does not fit; lane 127 may enter with none.
#[test]
fn an_ordered_call_that_lacks_one_byte() {
    let mut machine = opened(128, 1_023);
    for lane in 0..127 {
        assert_eq!(say(&mut machine, enter(lane, 1)), "gathered");
    }
    assert_eq!(say(&mut machine, enter(127, 1)), "refused 16");
    assert_eq!(say(&mut machine, enter(127, 0)), "ordered 0 127");
    assert_eq!(machine.line.phases[127], Phase::Idle);
}

// ---- the sound line ----

#[test]
fn a_sound_line_has_128_entries_and_those_past_n_are_idle() {
    let unsound = |line: &Line| refuse_1_line_not_sound(line, BOOK);
    assert!(!unsound(&opened(128, 64).line) && !unsound(&opened(65, 64).line));
    assert_eq!(Line::unopened().phases.len(), 128);
    assert!(unsound(&Line { lanes: 129, ..opened(128, 64).line }));
    for (lanes, past) in [(64, 64), (64, 127), (65, 65), (127, 127)] {
        let mut line = opened(lanes, 64).line;
        line.phases[past] = Phase::Gathered { count: 0 };
        assert!(unsound(&line));
        let mut line = opened(lanes, 64).line;
        line.flags[past] = 1;
        assert!(unsound(&line));
    }
}

/// Lane 127 counts in the rules: two that hold, and a flag without a phase.
#[test]
fn the_rules_of_a_sound_line_look_at_lane_127() {
    let holding = Phase::Holding { purpose: Purpose::SharedWrite, value: 0 };
    let mut line = opened(128, 64).line;
    line.phases[127] = holding;
    assert!(refuse_1_line_not_sound(&line, BOOK));
    line.flags[127] = 1;
    assert!(!refuse_1_line_not_sound(&line, BOOK));
    line.phases[0] = holding;
    line.flags[0] = 1;
    assert!(refuse_1_line_not_sound(&line, BOOK));
}
