//! Damage to a line: flags, numbers, the view, regions, the turn and the gathering.

use super::walk::{is_busy, is_gathered, is_idle, is_waiting};
use crate::line::*;
use crate::random::Random;

// ---- flags, lanes and numbers ----

/// A lane below N whose phase is as wanted; there must be one.
fn lane_in(random: &mut Random, line: &Line, wanted: fn(&Phase) -> bool) -> usize {
    let lanes: Vec<usize> = (0..line.lanes).filter(|&lane| wanted(&line.phases[lane])).collect();
    random.pick(&lanes)
}

fn has_turn(phase: &Phase) -> bool {
    matches!(phase, Phase::Woken { .. } | Phase::Holding { .. })
}

pub fn flag_of_2(random: &mut Random, line: &mut Line) {
    let lanes = random.pick(&[line.lanes, line.lanes, MOST_LANES]);
    let lane = random.below(lanes as u64) as usize;
    line.flags[lane] = random.pick(&[2, 3, 129, 255]);
}

pub fn flag_dropped(random: &mut Random, line: &mut Line) {
    let wanted = if random.one_in(3) { has_turn } else { is_waiting };
    let lane = lane_in(random, line, wanted);
    line.flags[lane] = 0;
}

/// The flag of an idle lane; one is made idle where there is none.
pub fn flag_raised(random: &mut Random, line: &mut Line) {
    if !line.live().iter().any(is_idle) {
        let lane = lane_in(random, line, is_waiting);
        line.phases[lane] = Phase::Idle;
    }
    let lane = lane_in(random, line, is_idle);
    line.flags[lane] = 1;
}

pub fn lanes_above(random: &mut Random, line: &mut Line) {
    line.lanes = random.pick(&[129, 129, 130, 192, 255]);
}

pub fn lanes_off(random: &mut Random, line: &mut Line) {
    line.lanes = if random.one_in(2) { line.lanes + 1 } else { line.lanes - 1 };
}

fn off_by_one(random: &mut Random, number: u32) -> u32 {
    if random.one_in(2) {
        number.wrapping_sub(1)
    } else {
        number.wrapping_add(1)
    }
}

pub fn pointer_off(random: &mut Random, line: &mut Line) {
    line.pointer = off_by_one(random, line.pointer);
}

pub fn pointer_above(random: &mut Random, line: &mut Line) {
    set_pointer(line, random.pick(&[65_537, 65_537, 65_600, 0x8000_0000, u32::MAX]));
}

/// The pointer, and with it the value of the lane that has the turn.
fn set_pointer(line: &mut Line, pointer: u32) {
    line.pointer = pointer;
    for phase in line.phases.iter_mut() {
        if let Phase::Woken { value, .. } | Phase::Holding { value, .. } = phase {
            *value = pointer;
        }
    }
}

pub fn size_off(random: &mut Random, line: &mut Line) {
    line.size = off_by_one(random, line.size);
}

pub fn size_above(random: &mut Random, line: &mut Line) {
    line.size = random.pick(&[line.capacity + 1, line.capacity + 1, 65_537, u32::MAX]);
}

pub fn capacity_below(random: &mut Random, line: &mut Line) {
    line.view = View::plain();
    line.capacity = random.pick(&[7, 7, 1, 0]);
    line.size = line.size.min(line.capacity);
}

pub fn capacity_above(random: &mut Random, line: &mut Line) {
    line.capacity = random.pick(&[65_537, 65_537, 65_540, 70_000]);
}

pub fn capacity_off(random: &mut Random, line: &mut Line) {
    line.capacity = off_by_one(random, line.capacity);
}

// ---- the view, one rule at a time ----

/// A view of these blocks, with the least extent and displacement 0.
fn view_of(blocks: &[(u16, u16)]) -> View {
    let mut list = [(0, 0); 8];
    list[..blocks.len()].copy_from_slice(blocks);
    let extent = blocks.last().map_or(1, |block| block.0 + block.1);
    View { displacement: 0, extent, blocks: blocks.len() as u8, list }
}

pub fn displacement_above(random: &mut Random, line: &mut Line) {
    line.view.displacement = random.pick(&[line.capacity + 1, line.capacity + 1, u32::MAX]);
}

/// Above 1,024. (With an extent of 0 no block lies within it: another rule is broken as well.)
pub fn extent_out(random: &mut Random, line: &mut Line) {
    line.view.extent = random.pick(&[1_025, 1_025, 65_535]);
}

/// And no block that is not zero.
pub fn no_blocks(random: &mut Random, line: &mut Line) {
    line.view = View { extent: random.between(1, 9) as u16, ..view_of(&[]) };
}

/// All eight are in use.
pub fn blocks_above(random: &mut Random, line: &mut Line) {
    let blocks: Vec<(u16, u16)> = (0..8).map(|nth| (2 * nth, 1)).collect();
    line.view = View { blocks: random.pick(&[9, 9, 128, 255]), ..view_of(&blocks) };
}

pub fn block_of_0(random: &mut Random, line: &mut Line) {
    let views = [&[(0, 0)][..], &[(0, 1), (1, 0)], &[(0, 0), (0, 1)], &[(1, 1), (2, 0), (2, 1)]];
    let view = view_of(random.pick(&views));
    line.view = View { extent: view.extent.max(1), ..view };
}

/// By one record, at the first or the second pair.
pub fn block_below(random: &mut Random, line: &mut Line) {
    let views = [&[(0, 2), (1, 1)][..], &[(3, 1), (2, 2)], &[(0, 1), (1, 3), (3, 2)]];
    line.view = view_of(random.pick(&views));
    line.view.extent += random.below(3) as u16;
}

pub fn block_past(random: &mut Random, line: &mut Line) {
    line.view =
        view_of(random.pick(&[&[(0, 3)][..], &[(0, 1), (1, 1)], &[(1_000, 24), (1_024, 1)]]));
    line.view.extent -= 1;
}

/// Its start or its length, of the first or of the last one.
pub fn block_unused(random: &mut Random, line: &mut Line) {
    line.view = view_of(random.pick(&[&[(0, 1)][..], &[(0, 2), (2, 1)]]));
    let unused = random.pick(&[usize::from(line.view.blocks), 7]);
    line.view.list[unused] = random.pick(&[(0, 1), (5, 0), (20, 1), (0, 256)]);
}

// ---- regions ----

/// The busy lanes with their regions, lowest first.
pub fn regions(line: &Line) -> Vec<(u32, u32, usize)> {
    let mut regions = Vec::new();
    for (lane, phase) in line.live().iter().enumerate() {
        if let Phase::Busy { next, left, .. } = *phase {
            regions.push((next, left, lane));
        }
    }
    regions.sort_unstable();
    regions
}

/// Changes a busy lane's region.
fn set_region(line: &mut Line, lane: usize, to: (u32, u32)) {
    if let Phase::Busy { next, left, .. } = &mut line.phases[lane] {
        (*next, *left) = to;
    }
}

/// A region goes down by as much that it shares one place with the one before, or both start at
/// one place.
pub fn overlap(random: &mut Random, line: &mut Line) {
    let regions = regions(line);
    let upper = random.between(1, regions.len() as u64 - 1) as usize;
    let (low_next, low_left, _) = regions[upper - 1];
    let (_, left, lane) = regions[upper];
    let shared = if random.one_in(5) { low_left } else { 1 };
    set_region(line, lane, (low_next + low_left - shared, left));
}

/// By one place, mostly: the pointer falls, or the last region moves up.
pub fn past_pointer(random: &mut Random, line: &mut Line) {
    let (next, left, lane) = *regions(line).last().expect("a busy lane");
    match random.below(5) {
        0 | 1 => set_pointer(line, next + left - 1),
        2 => set_region(line, lane, (line.pointer + 1 - left, left)),
        3 => {
            let next = line.pointer + 1 - left;
            line.phases[lane] = Phase::Busy { writing: false, next, left };
        }
        _ => line.phases[lane] = Phase::Busy { writing: false, next: 70_000, left },
    }
}

pub fn none_left(random: &mut Random, line: &mut Line) {
    let lane = lane_in(random, line, is_busy);
    let Phase::Busy { next, .. } = line.phases[lane] else { unreachable!("busy") };
    let next = random.pick(&[next, 0, line.pointer]);
    set_region(line, lane, (next, 0));
}

/// A writer alone, whose last record is the first that does not fit.
pub fn writer_unfit(random: &mut Random, line: &mut Line) {
    for phase in line.phases.iter_mut().filter(|phase| is_busy(phase)) {
        *phase = Phase::Idle;
    }
    let end = line.room(0) + 1;
    let left = random.between(1, 3).min(u64::from(end)) as u32;
    let lane = lane_in(random, line, is_idle);
    line.phases[lane] = Phase::Busy { writing: true, next: end - left, left };
    let pointer = line.pointer.max(end);
    set_pointer(line, pointer);
}

// ---- past N ----

/// A lane past N; of 128 lanes the last becomes one.
fn lane_past(random: &mut Random, line: &mut Line) -> usize {
    if line.lanes == MOST_LANES {
        line.lanes -= 1;
        line.phases[line.lanes] = Phase::Idle;
        line.flags[line.lanes] = 0;
    }
    let lanes = line.lanes as u64;
    let any = random.between(lanes, MOST_LANES as u64 - 1);
    random.pick(&[lanes, MOST_LANES as u64 - 1, any]) as usize
}

pub fn entry_past(random: &mut Random, line: &mut Line) {
    let lane = lane_past(random, line);
    line.phases[lane] = random.pick(&[
        Phase::Gathered { count: 0 },
        Phase::Gathered { count: 1 },
        Phase::Busy { writing: false, next: 0, left: 1 },
        Phase::Waiting { purpose: Purpose::SharedWrite },
    ]);
}

/// The entry with the flag that it would have below N.
pub fn flagged_past(random: &mut Random, line: &mut Line) {
    let (lane, value) = (lane_past(random, line), line.pointer);
    let purpose = Purpose::SharedRead;
    line.flags[lane] = 1;
    line.phases[lane] = random.pick(&[
        Phase::Waiting { purpose },
        Phase::Holding { purpose, value },
        Phase::Woken { purpose, value },
    ]);
}

pub fn flag_past(random: &mut Random, line: &mut Line) {
    let lane = lane_past(random, line);
    line.flags[lane] = 1;
}

// ---- the turn and the gathering ----

pub fn second_turn(random: &mut Random, line: &mut Line) {
    let (lane, value) = (lane_in(random, line, is_waiting), line.pointer);
    let purpose = random.pick(&[Purpose::SharedWrite, Purpose::SharedRead, Purpose::WholeBook]);
    line.phases[lane] = match random.one_in(2) {
        true => Phase::Holding { purpose, value },
        false => Phase::Woken { purpose, value },
    };
}

/// The lane that had it waits as well.
pub fn no_turn(random: &mut Random, line: &mut Line) {
    let lane = lane_in(random, line, has_turn);
    line.phases[lane] = Phase::Waiting { purpose: Purpose::SharedRead };
}

pub fn value_off(random: &mut Random, line: &mut Line) {
    let (lane, pointer) = (lane_in(random, line, has_turn), line.pointer);
    let near = off_by_one(random, pointer);
    let other = random.pick(&[near, near, pointer ^ 0x0001_0000, !pointer]);
    if let Phase::Woken { value, .. } | Phase::Holding { value, .. } = &mut line.phases[lane] {
        *value = other;
    }
}

pub fn gathered_beside(random: &mut Random, line: &mut Line) {
    let (lane, value) = (lane_in(random, line, is_idle), line.pointer);
    let purpose = Purpose::WholeBook;
    (line.phases[lane], line.flags[lane]) = random.pick(&[
        (Phase::Holding { purpose, value }, 1),
        (Phase::Woken { purpose, value }, 1),
        (Phase::Busy { writing: false, next: 0, left: 1 }, 0),
    ]);
}

pub fn all_gathered(_: &mut Random, line: &mut Line) {
    let lanes = line.lanes;
    for phase in line.phases[..lanes].iter_mut().filter(|phase| is_idle(phase)) {
        *phase = Phase::Gathered { count: 0 };
    }
}

/// One record more than fits.
pub fn gathered_too_many(random: &mut Random, line: &mut Line) {
    let lane = lane_in(random, line, is_gathered);
    line.phases[lane] = Phase::Gathered { count: 0 };
    let count = u64::from(line.room(line.pointer)) + 1 - line.gathered_total();
    line.phases[lane] = Phase::Gathered { count: count as u16 };
}

pub fn unopened_with_more(random: &mut Random, line: &mut Line) {
    let lane = random.below(MOST_LANES as u64) as usize;
    match random.below(9) {
        0 => line.capacity = random.pick(&[1, 8, 64]),
        1 => line.size = 1,
        2 => line.pointer = 1,
        3 => line.view.displacement = 1,
        4 => line.view.extent = random.pick(&[0, 2]),
        5 => line.view.blocks = random.pick(&[0, 2]),
        6 => line.view.list[random.below(8) as usize].1 ^= 2,
        7 => line.phases[lane] = Phase::Gathered { count: 0 },
        _ => line.flags[lane] = 1,
    }
}

// ---- numbers that would fit if they wrapped ----

pub fn wrap_region(random: &mut Random, line: &mut Line) {
    let lane = lane_in(random, line, is_busy);
    let before = random.between(1, 3) as u32;
    set_region(line, lane, (0u32.wrapping_sub(before), before + random.below(2) as u32));
}

pub fn wrap_block(random: &mut Random, line: &mut Line) {
    let mut view = View::plain();
    view.extent = random.between(2, 1_024) as u16;
    if random.one_in(2) {
        view.list[0] = (65_535, random.pick(&[1, 2]));
    } else {
        view.blocks = 2;
        view.list[0] = (0, 65_535);
        view.list[1] = random.pick(&[(65_535, 2), (1, 1)]);
    }
    line.view = view;
}

/// Two counts that come to 65,536 or a little more.
pub fn wrap_counts(random: &mut Random, line: &mut Line) {
    (line.lanes, line.view) = (line.lanes.max(3), View::plain());
    line.phases[0] = Phase::Gathered { count: 65_535 };
    line.phases[1] = Phase::Gathered { count: random.between(1, 2) as u16 };
    line.pointer = 0;
}

/// Nine counts that come to 2^19 + 1: in this view the last record starts at 2^32.
pub fn wrap_position(_: &mut Random, line: &mut Line) {
    let view = View { extent: MOST_EXTENT, ..View::plain() };
    (line.lanes, line.view, line.pointer) = (line.lanes.max(10), view, 0);
    for lane in 0..8 {
        line.phases[lane] = Phase::Gathered { count: 65_535 };
    }
    line.phases[8] = Phase::Gathered { count: 9 };
}
