//! Document 01's example sheet, its edges as Wishes 2 and 4 leave them, and the readings chosen.

use oracle_lib::event::Event;
use oracle_lib::line::{Machine, Phase, Search, View};
use oracle_lib::sheet::print_sheet;

/// Bytes of hexadecimal text; blanks and commas are passed over.
fn hex(text: &str) -> Vec<u8> {
    let digits: Vec<u32> = text.chars().filter_map(|c| c.to_digit(16)).collect();
    digits.chunks(2).map(|pair| (pair[0] * 16 + pair[1]) as u8).collect()
}

fn printed(sheet: &[u8]) -> String {
    String::from_utf8(print_sheet(sheet, Search::AfterReleaser)).unwrap()
}

/// The lines of a sheet given in hexadecimal, without their numbers.
fn answers(text: &str) -> Vec<String> {
    let lines = printed(&hex(text));
    lines.lines().map(|line| line.split_once(' ').unwrap()).map(bare).collect()
}

fn bare((number, rest): (&str, &str)) -> String {
    if number == "end" {
        format!("end {rest}")
    } else {
        rest.to_string()
    }
}

fn view(displacement: u32, extent: u16, blocks: &[(u16, u16)]) -> View {
    let mut list = [(0, 0); 8];
    list[..blocks.len()].copy_from_slice(blocks);
    View { displacement, extent, blocks: blocks.len() as u8, list }
}

fn opened(lanes: u8, capacity: u32) -> Machine {
    let mut machine = Machine::new(Search::AfterReleaser);
    machine.call(&Event::Open { lanes, capacity });
    machine
}

fn say(machine: &mut Machine, event: Event) -> String {
    machine.call(&event).text()
}

#[test]
fn example_sheet() {
    let sheet = hex("01 02 00000040, 02 00 00, 02 01 00, 03 01, 04 00 0002, 03 01, 04 01 0001,
         05 01 0102030405060708, 05 00 1112131415161718, 05 00 2122232425262728,
         05 00 3132333435363738");
    let wanted = "0 open 2 64\n1 holds 0\n2 waits\n3 refused 14\n4 region 0 2 wakes 1\n\
                  5 holds 2\n6 region 2 1 wakes none\n7 wrote 16\n8 wrote 0\n9 wrote 8\n\
                  10 refused 13\nend 24 3\n";
    assert_eq!(printed(&sheet), wanted);
}

#[test]
fn one_lane_holds() {
    assert_eq!(answers("01 01 00000008, 02 00 01")[1], "holds 0");
}

/// A line of so many lanes on which these have wanted, the first one holding.
fn wanted_by(lanes: u8, purpose: u8, wanting: &[u8]) -> Machine {
    let mut machine = opened(lanes, 64);
    for &lane in wanting {
        machine.call(&Event::Want { lane, purpose });
    }
    machine
}

/// Document 01's two edges with 64 lanes, and the same two with 128.
#[test]
fn next_lane_goes_round() {
    for (lanes, last) in [(64, 63), (128, 127)] {
        let mut machine = wanted_by(lanes, 0, &[last, last - 1, 0]);
        assert_eq!(say(&mut machine, Event::Take { lane: last, count: 0 }), "region 0 0 wakes 0");
        let mut machine = wanted_by(lanes, 2, &[5, 4]);
        assert_eq!(say(&mut machine, Event::Free { lane: 5 }), "freed wakes 4");
    }
}

#[test]
fn view_positions() {
    let view = view(4, 5, &[(1, 2), (4, 1)]);
    let positions: Vec<u64> = (0..4).map(|place| view.position(place)).collect();
    assert_eq!(positions, [12, 20, 36, 52]);
}

#[test]
fn what_fits() {
    assert_eq!(
        answers("01 01 00000040, 02 00 00, 04 00 0009, 04 00 0008")[2..4],
        ["refused 16", "region 0 8 wakes none"]
    );
    assert_eq!(
        answers("01 01 0000003F, 02 00 00, 04 00 0008, 04 00 0007")[2..4],
        ["refused 16", "region 0 7 wakes none"]
    );
}

#[test]
fn seeks() {
    let at_3 = "01 01 00000040, 0C 00 00000003,";
    assert_eq!(answers(&format!("{at_3} 0C 01 FFFFFFFD"))[2], "seek 0");
    assert_eq!(answers(&format!("{at_3} 0C 01 FFFFFFFC"))[2], "refused 15");
    assert_eq!(answers(&format!("{at_3} 0C 00 00010000"))[2], "seek 65536");
    assert_eq!(answers(&format!("{at_3} 0C 00 00010001"))[2], "refused 15");
    assert_eq!(answers(&format!("{at_3} 0C 01 7FFFFFFF"))[2], "refused 15");
    assert_eq!(answers(&format!("{at_3} 0C 01 80000000"))[2], "refused 15");
}

/// The edge of size 24 is read in the plain view since Wish 4, and stays. Size 31 gave 3, as
/// size / 8 rounded down; by Wish 4 the count rounds up (more in `wish4.rs`).
#[test]
fn seeks_to_the_end() {
    let mut machine = opened(1, 64);
    for (size, said) in [(24, "seek 3"), (31, "seek 4")] {
        machine.line.size = size;
        assert_eq!(say(&mut machine, Event::Seek { whence: 2, offset: 0 }), said);
    }
}

#[test]
fn ordered_call_in_any_order() {
    let counts = [2u16, 0, 3];
    for order in [[0, 1, 2], [0, 2, 1], [1, 0, 2], [1, 2, 0], [2, 0, 1], [2, 1, 0]] {
        let mut machine = opened(3, 120);
        machine.call(&Event::Seek { whence: 0, offset: 10 });
        let said: Vec<String> = order
            .iter()
            .map(|&lane| Event::Enter { lane, count: counts[lane as usize] })
            .map(|event| say(&mut machine, event))
            .collect();
        assert_eq!(said, ["gathered", "gathered", "ordered 10 5"]);
        assert_eq!(machine.line.phases[0], Phase::Busy { writing: true, next: 10, left: 2 });
        assert_eq!(machine.line.phases[1], Phase::Idle);
        assert_eq!(machine.line.phases[2], Phase::Busy { writing: true, next: 12, left: 3 });
        assert_eq!(machine.line.pointer, 15);
    }
}

#[test]
fn openings_empty_and_lane_n() {
    assert_eq!(printed(&[]), "end 0 0\n");
    assert_eq!(answers("01 81 00000040"), ["refused 6", "end 0 0"]);
    assert_eq!(answers("01 80 00000040"), ["open 128 64", "end 0 0"]);
    assert_eq!(answers("01 41 00000040"), ["open 65 64", "end 0 0"]);
    assert_eq!(answers("01 40 00000040"), ["open 64 64", "end 0 0"]);
    assert_eq!(answers("01 00 00000007"), ["refused 6", "end 0 0"]);
    assert_eq!(answers("01 01 00010001"), ["refused 7", "end 0 0"]);
    assert_eq!(answers("01 02 00000040, 02 02 00")[1], "refused 8");
    assert_eq!(answers("01 40 00000040, 02 40 00")[1], "refused 8");
    assert_eq!(answers("01 80 00000040, 02 80 00")[1], "refused 8");
    assert_eq!(
        answers("02 02 00, 01 02 00000040, 01 00 00000000"),
        ["refused 4", "open 2 64", "refused 5", "end 0 0"]
    );
}

#[test]
fn long_cut_and_unlisted_sheets() {
    assert_eq!(printed(&vec![3; 65_537]), "sheet too long\n");
    assert_eq!(printed(&vec![3; 65_536]).lines().count(), 32_769);
    assert_eq!(answers("01"), ["refused 3", "end 0 0"]);
    assert_eq!(answers("0D"), ["refused 2", "end 0 0"]);
    assert_eq!(answers("00 01 01 00000040"), ["refused 2", "end 0 0"]);
    assert_eq!(answers("01 01 00000040, 05 00 00"), ["open 1 64", "refused 3", "end 0 0"]);
}

#[test]
fn reads_records_and_none() {
    let said = answers(
        "01 01 00000014, 02 00 02, 07 00 00000001 0000000000000ABC, 09 00,
         02 00 01, 04 00 0003, 06 00, 06 00, 06 00, 06 00",
    );
    let wanted = [
        "open 1 20",
        "holds 0",
        "wrote 8",
        "freed wakes none",
        "holds 0",
        "region 0 3 wakes none",
        "record 0000000000000000",
        "record 0000000000000abc",
        "none",
        "refused 13",
        "end 16 3",
    ];
    assert_eq!(said, wanted);
}

#[test]
fn whole_book_places_reach_far() {
    let mut machine = opened(1, 65_536);
    let View { displacement, extent, blocks, list } = view(3, 1_024, &[(1_023, 1)]);
    machine.call(&Event::View { displacement, extent, blocks, list });
    machine.call(&Event::Want { lane: 0, purpose: 2 });
    assert_eq!(say(&mut machine, Event::Look { lane: 0, place: u32::MAX }), "none");
    let record = [1; 8];
    assert_eq!(say(&mut machine, Event::Put { lane: 0, place: u32::MAX, record }), "refused 16");
    assert_eq!(say(&mut machine, Event::Put { lane: 0, place: 6, record }), "wrote 57339");
    assert_eq!(machine.line.size, 57_347);
    assert_eq!(say(&mut machine, Event::Put { lane: 0, place: 7, record }), "refused 16");
}

#[test]
fn pointer_at_its_top() {
    let said = answers(
        "01 01 00000008, 0C 00 00010000, 02 00 00, 04 00 0001, 04 00 0000,
         02 00 01, 04 00 0001, 04 00 0000, 0A 00 0001, 0A 00 0000",
    );
    let wanted = [
        "open 1 8",
        "seek 65536",
        "holds 65536",
        "refused 16",
        "region 65536 0 wakes none",
        "holds 65536",
        "refused 15",
        "region 65536 0 wakes none",
        "refused 16",
        "ordered 65536 0",
        "end 0 65536",
    ];
    assert_eq!(said, wanted);
}

#[test]
fn the_wake_carries_the_new_pointer() {
    let said = answers(
        "01 03 00000100, 02 00 00, 02 01 02, 02 02 00, 04 00 0005, 03 01, 04 01 0000, 09 01, 03 02",
    );
    assert_eq!(
        said[4..9],
        ["region 0 5 wakes 1", "holds 5", "refused 13", "freed wakes 2", "holds 5"]
    );
}

#[test]
fn gathered_lanes_hold_others_off() {
    let said = answers(
        "01 02 00000010, 0A 00 0002, 02 01 00, 02 00 00, 0A 00 0000, 0A 01 0001,
         0C 00 00000000, 0A 01 0000, 0A 01 0000",
    );
    let wanted = [
        "open 2 16",
        "gathered",
        "refused 12",
        "refused 12",
        "refused 13",
        "refused 16",
        "refused 11",
        "ordered 0 2",
        "refused 11",
        "end 0 2",
    ];
    assert_eq!(said, wanted);
}

#[test]
fn view_rules() {
    let good = [
        view(64, 1, &[(0, 1)]),
        view(63, 1_024, &[(0, 1_024)]),
        view(0, 4, &[(0, 2), (2, 2)]),
        view(1, 16, &[(0, 1), (1, 1), (2, 1), (3, 1), (4, 1), (5, 1), (6, 1), (15, 1)]),
    ];
    assert!(good.iter().all(|view| view.keeps_rules(64)));
    let mut unused = view(0, 4, &[(0, 1)]);
    unused.list[7] = (1, 0);
    let bad = [
        view(65, 1, &[(0, 1)]),
        view(0, 0, &[(0, 1)]),
        view(0, 1_025, &[(0, 1)]),
        view(0, 4, &[]),
        view(0, 4, &[(0, 0)]),
        view(0, 4, &[(0, 2), (1, 1)]),
        view(0, 4, &[(2, 1), (0, 1)]),
        view(0, 4, &[(3, 2)]),
        view(0, 4, &[(65_535, 65_535)]),
        View { blocks: 9, ..view(0, 4, &[(0, 1)]) },
        unused,
    ];
    assert!(bad.iter().all(|view| !view.keeps_rules(64)));
}
