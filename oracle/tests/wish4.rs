//! The sentences of Wish 4 on hand-made sheets: the end of the book through a view.

use oracle_lib::event::Event;
use oracle_lib::line::{Machine, Search};
use oracle_lib::sheet::print_sheet;

type Blocks<'a> = &'a [(u16, u16)];

const RECORD: [u8; 8] = [0, 0, 0, 0, 0, 0, 10, 188];
/// The blocks of document 01's edge; with displacement 4 and extent 5 its places lie at
/// 12, 20, 36, then 40 further on for each tile.
const EDGE_BLOCKS: Blocks = &[(1, 2), (4, 1)];
const WRITE: Event = Event::Write { lane: 0, record: RECORD };

fn view(displacement: u32, extent: u16, blocks: Blocks) -> Event {
    let mut list = [(0, 0); 8];
    list[..blocks.len()].copy_from_slice(blocks);
    Event::View { displacement, extent, blocks: blocks.len() as u8, list }
}

fn edge_view() -> Event {
    view(4, 5, EDGE_BLOCKS)
}

fn plain_view() -> Event {
    view(0, 1, &[(0, 1)])
}

fn open(lanes: u8, capacity: u32) -> Event {
    Event::Open { lanes, capacity }
}

fn want(purpose: u8) -> Event {
    Event::Want { lane: 0, purpose }
}

fn take(count: u16) -> Event {
    Event::Take { lane: 0, count }
}

fn seek(whence: u8, offset: i32) -> Event {
    Event::Seek { whence, offset }
}

fn to_end(offset: i32) -> Event {
    seek(2, offset)
}

/// Opens a line and puts one record through a view whose displacement makes it end at the size:
/// any size of 8 or more can be had so, multiple of 8 or not.
fn book(lanes: u8, capacity: u32, size: u32) -> Vec<Event> {
    let put = Event::Put { lane: 0, place: 0, record: RECORD };
    let shift = view(size - 8, 1, &[(0, 1)]);
    vec![open(lanes, capacity), shift, want(2), put, Event::Free { lane: 0 }]
}

/// One lane and a book of this size; 0 for a book with no record.
fn sized(capacity: u32, size: u32) -> Machine {
    let events = if size == 0 { vec![open(1, capacity)] } else { book(1, capacity, size) };
    let mut machine = Machine::new(Search::AfterReleaser);
    events.iter().for_each(|event| assert_ne!(machine.call(event).word(), "refused"));
    assert_eq!(machine.line.size, size);
    machine
}

fn say(machine: &mut Machine, event: Event) -> String {
    machine.call(&event).text()
}

/// Changes to the view; then a seek to the end by 0 answers with the count.
fn count(machine: &mut Machine, view: Event) -> String {
    assert_eq!(say(machine, view), "view");
    say(machine, to_end(0))
}

/// The counts that these sizes give in one view, on a line of this capacity.
fn counts_are(capacity: u32, view: Event, wanted: &[(u32, u64)]) {
    for &(size, places) in wanted {
        let said = count(&mut sized(capacity, size), view);
        assert_eq!(said, format!("seek {places}"), "size {size} in {view:?}");
    }
}

/// The lines of a sheet of these events, with their numbers.
fn printed(events: &[Event]) -> Vec<String> {
    let sheet: Vec<u8> = events.iter().flat_map(Event::to_bytes).collect();
    let text = String::from_utf8(print_sheet(&sheet, Search::AfterReleaser)).unwrap();
    text.lines().map(String::from).collect()
}

// ---- the paper's figures ----

/// Size 24: 3 in the plain view, 2 in the view of document 01's edge, where size / 8 gave 3.
#[test]
fn the_figures_of_the_wish() {
    let said = printed(&[
        open(1, 64),
        want(0),
        take(3),
        WRITE,
        WRITE,
        WRITE,
        to_end(0),
        edge_view(),
        to_end(0),
        plain_view(),
        to_end(0),
    ]);
    let wanted = [
        "0 open 1 64",
        "1 holds 0",
        "2 region 0 3 wakes none",
        "3 wrote 0",
        "4 wrote 8",
        "5 wrote 16",
        "6 seek 3",
        "7 view",
        "8 seek 2",
        "9 view",
        "10 seek 3",
        "end 24 3",
    ];
    assert_eq!(said, wanted);
}

/// One size, one view after the other: the count is that of the view in force.
#[test]
fn the_view_in_force_counts() {
    let mut machine = sized(64, 24);
    assert_eq!(say(&mut machine, to_end(0)), "seek 1"); // displacement 16
    assert_eq!(count(&mut machine, plain_view()), "seek 3");
    assert_eq!(count(&mut machine, edge_view()), "seek 2");
    assert_eq!(count(&mut machine, view(8, 1, &[(0, 1)])), "seek 2");
    assert_eq!(count(&mut machine, view(0, 2, &[(0, 1)])), "seek 2");
    assert_eq!(count(&mut machine, view(0, 2, &[(1, 1)])), "seek 1");
    assert_eq!(count(&mut machine, plain_view()), "seek 3");
}

// ---- the plain view ----

/// Two records through displacement 3 end at 19: 2 there, and 3 (not 2) in the plain view.
#[test]
fn a_size_that_is_no_multiple_of_8() {
    let said = printed(&[
        open(1, 64),
        view(3, 1, &[(0, 1)]),
        want(0),
        take(2),
        WRITE,
        WRITE,
        to_end(0),
        plain_view(),
        to_end(0),
    ]);
    let wanted = ["4 wrote 3", "5 wrote 11", "6 seek 2", "7 view", "8 seek 3", "end 19 3"];
    assert_eq!(said[4..], wanted);
}

/// Size / 8 rounded up, for every size that a small book can have.
#[test]
fn the_plain_view_rounds_up() {
    counts_are(8, plain_view(), &[(0, 0), (8, 1)]);
    counts_are(101, plain_view(), &[(9, 2), (15, 2), (16, 2), (17, 3), (96, 12), (101, 13)]);
    for size in 8..=101 {
        let up = u64::from(size / 8 + u32::from(size % 8 > 0));
        counts_are(101, plain_view(), &[(size, up)]);
    }
}

// ---- displacements ----

/// The count is 0 where the displacement is at or past the size.
#[test]
fn displacements_about_the_size() {
    let places = [(0, 3), (7, 3), (8, 2), (15, 2), (16, 1), (22, 1), (23, 1)];
    let none = [(24, 0), (25, 0), (31, 0), (32, 0), (63, 0), (64, 0)];
    for (displacement, places) in places.into_iter().chain(none) {
        counts_are(64, view(displacement, 1, &[(0, 1)]), &[(24, places)]);
    }
}

/// The first block starts one record into the tile: at 8 past the displacement.
#[test]
fn displacements_about_the_size_with_a_gap_first() {
    for (displacement, places) in [(0, 1), (15, 1), (16, 0), (17, 0), (23, 0), (24, 0), (25, 0)] {
        counts_are(64, view(displacement, 3, &[(1, 1)]), &[(24, places)]);
    }
}

#[test]
fn a_book_with_no_record_counts_no_place() {
    for view in [plain_view(), edge_view(), view(64, 1, &[(0, 1)]), view(0, 9, &[(8, 1)])] {
        counts_are(64, view, &[(0, 0)]);
    }
}

// ---- sizes that cut a tile ----

/// The view of the edge: a gap first, one between the blocks, none at the tile's end.
#[test]
fn sizes_that_cut_a_tile_of_the_edge() {
    let first_gap = [(8, 0), (11, 0), (12, 0)];
    let first_block = [(13, 1), (19, 1), (20, 1), (21, 2), (27, 2), (28, 2)];
    let gap_between = [(29, 2), (35, 2), (36, 2)];
    let second_block = [(37, 3), (43, 3), (44, 3)];
    let second_tile = [(45, 3), (52, 3), (53, 4), (60, 4), (61, 5), (68, 5), (76, 5), (77, 6)];
    let third_tile = [(84, 6), (92, 6), (93, 7), (100, 7), (101, 8), (116, 8), (117, 9)];
    for sizes in [&first_gap[..], &first_block, &gap_between, &second_block] {
        counts_are(120, edge_view(), sizes);
    }
    counts_are(120, edge_view(), &second_tile);
    counts_are(120, edge_view(), &third_tile);
}

/// Touching blocks, a gap between and one at the tile's end: 0, 8, 16, 32, then 48 further on.
#[test]
fn sizes_that_cut_a_tile_with_a_gap_last() {
    let view = view(0, 6, &[(0, 1), (1, 2), (4, 1)]);
    let blocks = [(8, 1), (9, 2), (16, 2), (17, 3), (23, 3), (24, 3)];
    let gap_and_last_block = [(25, 3), (32, 3), (33, 4), (40, 4)];
    let last_gap = [(41, 4), (47, 4), (48, 4)];
    let second_tile = [(49, 5), (56, 5), (57, 6), (65, 7), (72, 7), (80, 7), (81, 8), (96, 8)];
    for sizes in [&blocks[..], &gap_and_last_block, &last_gap, &second_tile] {
        counts_are(120, view, sizes);
    }
}

/// The largest book in the widest and narrowest views, at sizes 65,536 and 65,533; the last view
/// shows 8 of 15 records, and 546 tiles leave 2 records.
#[test]
fn the_largest_book() {
    let every_other: Vec<(u16, u16)> = (0..8).map(|block| (2 * block, 1)).collect();
    let views = [
        (plain_view(), 8_192, 8_192),
        (view(1, 1, &[(0, 1)]), 8_192, 8_192),
        (view(65_535, 1, &[(0, 1)]), 1, 0),
        (view(65_536, 1, &[(0, 1)]), 0, 0),
        (view(0, 1_024, &[(0, 1_024)]), 8_192, 8_192),
        (view(0, 1_024, &[(0, 1)]), 8, 8),
        (view(0, 1_024, &[(1_023, 1)]), 8, 8),
        (view(5, 1_024, &[(1_023, 1)]), 8, 7),
        (view(65_535, 1_024, &[(1_023, 1)]), 0, 0),
        (view(0, 15, &every_other), 546 * 8 + 1, 546 * 8 + 1),
    ];
    for (view, at_65536, at_65533) in views {
        counts_are(65_536, view, &[(65_536, at_65536), (65_533, at_65533)]);
    }
}

// ---- a record that counts and reads as none ----

/// Places at 4, 12 and 20; with size 24 the third starts below it and ends past it.
#[test]
fn a_record_that_counts_can_read_as_none() {
    let mut events = book(1, 64, 24);
    events.extend([view(4, 1, &[(0, 1)]), to_end(0), to_end(-2), want(1), take(2)]);
    events.extend([Event::Read { lane: 0 }, Event::Read { lane: 0 }, want(2)]);
    events.extend([1, 2, 3].map(|place| Event::Look { lane: 0, place }));
    let wanted = [
        "5 view",
        "6 seek 3",
        "7 seek 1",
        "8 holds 1",
        "9 region 1 2 wakes none",
        "10 record 0000000000000000",
        "11 none",
        "12 holds 3",
        "13 record 0000000000000000",
        "14 none",
        "15 none",
        "end 24 3",
    ];
    assert_eq!(printed(&events)[5..], wanted);
}

// ---- refusals ----

/// The count plus the offset may be 0 to 65,536; the line is left alone by a refused seek.
fn ends_of_the_range(machine: &mut Machine, places: i32) {
    for (target, said) in [(0, "seek 0"), (1, "seek 1"), (65_536, "seek 65536")] {
        assert_eq!(say(machine, to_end(target - places)), said, "{places} places");
    }
    let before = machine.line.clone();
    for offset in [-1 - places, 65_537 - places, i32::MIN, i32::MAX] {
        assert_eq!(say(machine, to_end(offset)), "refused 15", "{places} places");
    }
    assert_eq!(machine.line, before);
}

#[test]
fn refusal_15_looks_at_the_count_plus_the_offset() {
    let views = [
        (plain_view(), 24, 3),
        (plain_view(), 25, 4),
        (edge_view(), 24, 2),
        (edge_view(), 12, 0),
        (edge_view(), 61, 5),
        (view(24, 2, &[(0, 1)]), 24, 0),
        (view(64, 2, &[(1, 1)]), 24, 0),
    ];
    for (view, size, places) in views {
        let mut machine = sized(64, size);
        machine.call(&view);
        ends_of_the_range(&mut machine, places);
    }
    ends_of_the_range(&mut sized(64, 0), 0);
    let mut full = sized(65_536, 65_536);
    full.call(&plain_view());
    ends_of_the_range(&mut full, 8_192);
}

#[test]
fn the_lower_refusals_come_before_15() {
    let mut machine = Machine::new(Search::AfterReleaser);
    assert_eq!(say(&mut machine, to_end(0)), "refused 4");
    let mut machine = sized(64, 24);
    assert_eq!(say(&mut machine, seek(3, -9)), "refused 9");
    machine.call(&want(0));
    assert_eq!(say(&mut machine, to_end(-9)), "refused 11");
    machine.call(&take(0));
    assert_eq!(say(&mut machine, to_end(-9)), "refused 15");
}

/// In a view of extent 0 no place lies past another, and a view of no blocks has no places.
#[test]
fn a_line_that_is_not_sound_gets_1() {
    let breaks: [fn(&mut Machine); 4] = [
        |machine| machine.line.view.extent = 0,
        |machine| machine.line.view.blocks = 0,
        |machine| machine.line.view.blocks = 9,
        |machine| machine.line.size = u32::MAX,
    ];
    for break_it in breaks {
        let mut machine = sized(64, 24);
        break_it(&mut machine);
        assert_eq!(say(&mut machine, to_end(0)), "refused 1");
    }
}

/// Whence 0 and 1 do not look at the size or the view.
#[test]
fn whence_0_and_1_are_as_before() {
    let mut machine = sized(64, 24);
    machine.call(&edge_view());
    let seeks = [(0, 7, "seek 7"), (1, 0, "seek 7"), (1, -7, "seek 0"), (1, -1, "refused 15")];
    for (whence, offset, said) in seeks {
        assert_eq!(say(&mut machine, seek(whence, offset)), said);
    }
}

// ---- writing at the end ----

/// Seeks to the end, takes one place and writes: where the record lies.
fn append(machine: &mut Machine) -> u32 {
    for event in [to_end(0), want(0), take(1)] {
        assert_ne!(machine.call(&event).word(), "refused");
    }
    let said = say(machine, WRITE);
    said.strip_prefix("wrote ").expect("a record that fits").parse().unwrap()
}

/// In every view and at every size: the first record lands at or past the size, the second
/// right behind it in the view, and the size follows them.
#[test]
fn appending_twice_never_lands_below_the_size() {
    let tiles: [(u16, Blocks); 5] = [
        (1, &[(0, 1)]),
        (5, EDGE_BLOCKS),
        (6, &[(0, 1), (1, 2), (4, 1)]),
        (4, &[(3, 1)]),
        (3, &[(0, 2)]),
    ];
    for (extent, blocks) in tiles {
        for displacement in [0, 1, 4, 8, 39, 40, 41, 99, 100, 101] {
            for size in (8..=101).chain([0]) {
                let mut machine = sized(400, size);
                machine.call(&view(displacement, extent, blocks));
                let first = append(&mut machine);
                let places = machine.line.pointer;
                assert!(first >= size && machine.line.size == first + 8);
                let second = append(&mut machine);
                assert!(second >= first + 8 && machine.line.size == second + 8);
                assert_eq!(machine.line.pointer, places + 1);
            }
        }
    }
}

/// Through the view of the edge from size 24, then in the plain view from 60.
#[test]
fn appending_on_a_sheet() {
    let mut events = book(1, 120, 24);
    events.push(edge_view());
    events.extend([to_end(0), want(0), take(1), WRITE].repeat(2));
    events.extend([to_end(0), plain_view(), to_end(0), want(0), take(1), WRITE, to_end(0)]);
    let wanted = [
        "5 view",
        "6 seek 2",
        "7 holds 2",
        "8 region 2 1 wakes none",
        "9 wrote 36",
        "10 seek 3",
        "11 holds 3",
        "12 region 3 1 wakes none",
        "13 wrote 52",
        "14 seek 4",
        "15 view",
        "16 seek 8",
        "17 holds 8",
        "18 region 8 1 wakes none",
        "19 wrote 64",
        "20 seek 9",
        "end 72 9",
    ];
    assert_eq!(printed(&events)[5..], wanted);
}

/// An ordered call after a seek to the end: lanes 0 and 1 write 1 and 2 records behind the size.
#[test]
fn an_ordered_call_at_the_end() {
    let mut events = book(2, 120, 24);
    events.extend([edge_view(), to_end(0)]);
    events.extend([(1, 2), (0, 1)].map(|(lane, count)| Event::Enter { lane, count }));
    events.extend([1, 0, 1].map(|lane| Event::Write { lane, record: RECORD }));
    events.push(to_end(0));
    let wanted = [
        "6 seek 2",
        "7 gathered",
        "8 ordered 2 3",
        "9 wrote 52",
        "10 wrote 36",
        "11 wrote 60",
        "12 seek 5",
        "end 68 5",
    ];
    assert_eq!(printed(&events)[6..], wanted);
}
