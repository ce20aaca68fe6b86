//! The reasons for refusing, one function for each number of document 01, as Wishes 2 and 4
//! leave it, and of Wish 1.
//! On a sound line every reason is looked at for every event, and the lowest is given; 17 alone
//! is looked for once, after 1 and before the first event of a run with a report.

use crate::event::{body_length, Event};
use crate::line::*;
use crate::report::Report;
use crate::sheet::MOST_SHEET;
use std::ops::Deref;

/// Every number from 4 to 16 that applies to this event in this state, or 1 alone: the others
/// go by a sound line, and the walk of whence 2 need not end on another.
pub fn refusals<B: Deref<Target = [u8]>>(machine: &Machine<B>, event: &Event) -> Vec<u8> {
    if refuse_1_line_not_sound(&machine.line, machine.book.len()) {
        return vec![1];
    }
    call_refusals(&machine.line, machine.book.len(), event)
}

/// Every number from 4 to 16 that applies, on a sound line.
pub fn call_refusals(line: &Line, book_bytes: usize, event: &Event) -> Vec<u8> {
    let tests = [
        (4, refuse_4_other_than_01_before_open(line, event)),
        (5, refuse_5_open_comes_to_open_line(line, event)),
        (6, refuse_6_lanes_not_1_to_128(event)),
        (7, refuse_7_capacity_not_8_to_65536_or_over_buffer(book_bytes, event)),
        (8, refuse_8_lane_not_below_n(line, event)),
        (9, refuse_9_purpose_or_whence_above_2(event)),
        (10, refuse_10_view_breaks_a_rule(line, event)),
        (11, refuse_11_some_lane_not_idle_or_gathered(line, event)),
        (12, refuse_12_want_while_a_lane_is_gathered(line, event)),
        (13, refuse_13_phase_or_purpose_not_allowed(line, event)),
        (14, refuse_14_receive_by_a_waiting_lane(line, event)),
        (15, refuse_15_pointer_below_0_or_above_65536(line, event)),
        (16, refuse_16_records_do_not_fit(line, event)),
    ];
    tests.iter().filter(|test| test.1).map(|test| test.0).collect()
}

/// 1. The line handed in is not sound (an unopened line is sound).
pub fn refuse_1_line_not_sound(line: &Line, book_bytes: usize) -> bool {
    if line.lanes == 0 {
        return *line != Line::unopened();
    }
    !(numbers_in_range(line, book_bytes)
        && flags_match_phases(line)
        && one_has_the_turn(line)
        && gathering_is_sound(line)
        && busy_lanes_are_sound(line))
}

/// 2. The kind is not 01 to 0C.
pub fn refuse_2_kind_not_listed(kind: u8) -> bool {
    !(0x01..=0x0C).contains(&kind)
}

/// 3. The body is cut short.
pub fn refuse_3_body_cut_short(kind: u8, rest: &[u8]) -> bool {
    match body_length(kind) {
        Some(length) => rest.len() < length,
        None => false,
    }
}

/// 4. A call other than 01 comes before the line is open.
pub fn refuse_4_other_than_01_before_open(line: &Line, event: &Event) -> bool {
    !line.is_open() && !matches!(event, Event::Open { .. })
}

/// 5. 01 comes to an open line.
pub fn refuse_5_open_comes_to_open_line(line: &Line, event: &Event) -> bool {
    line.is_open() && matches!(event, Event::Open { .. })
}

/// 6. The lanes of 01 are not 1 to 128 (Wish 2).
pub fn refuse_6_lanes_not_1_to_128(event: &Event) -> bool {
    match *event {
        Event::Open { lanes, .. } => lanes < 1 || lanes as usize > MOST_LANES,
        _ => false,
    }
}

/// 7. The capacity of 01 is not 8 to 65,536, or exceeds the buffer.
pub fn refuse_7_capacity_not_8_to_65536_or_over_buffer(book_bytes: usize, event: &Event) -> bool {
    match *event {
        Event::Open { capacity, .. } => {
            !(LEAST_CAPACITY..=MOST_CAPACITY).contains(&capacity) || capacity as usize > book_bytes
        }
        _ => false,
    }
}

/// 8. The lane is not below N.
pub fn refuse_8_lane_not_below_n(line: &Line, event: &Event) -> bool {
    match event.lane() {
        Some(lane) => lane >= line.lanes,
        None => false,
    }
}

/// 9. The purpose or the whence is above 2.
pub fn refuse_9_purpose_or_whence_above_2(event: &Event) -> bool {
    match *event {
        Event::Want { purpose, .. } => purpose > 2,
        Event::Seek { whence, .. } => whence > 2,
        _ => false,
    }
}

/// 10. The view breaks a rule above.
pub fn refuse_10_view_breaks_a_rule(line: &Line, event: &Event) -> bool {
    match *event {
        Event::View { displacement, extent, blocks, list } => {
            !View { displacement, extent, blocks, list }.keeps_rules(line.capacity)
        }
        _ => false,
    }
}

/// 11. For 0B or 0C some lane is not idle; for 0A some lane is neither idle nor gathered.
pub fn refuse_11_some_lane_not_idle_or_gathered(line: &Line, event: &Event) -> bool {
    let mut lanes = line.live().iter();
    match event {
        Event::View { .. } | Event::Seek { .. } => lanes.any(|phase| *phase != Phase::Idle),
        Event::Enter { .. } => {
            lanes.any(|phase| !matches!(phase, Phase::Idle | Phase::Gathered { .. }))
        }
        _ => false,
    }
}

/// 12. 02 comes while a lane is gathered.
pub fn refuse_12_want_while_a_lane_is_gathered(line: &Line, event: &Event) -> bool {
    let gathered = line.live().iter().any(|phase| matches!(phase, Phase::Gathered { .. }));
    matches!(event, Event::Want { .. }) && gathered
}

/// 13. The lane's phase or purpose does not allow the call, except where 14 applies.
pub fn refuse_13_phase_or_purpose_not_allowed(line: &Line, event: &Event) -> bool {
    let Some(phase) = event.lane().and_then(|lane| line.phase(lane)) else {
        return false; // no lane named, or 8 applies
    };
    let allowed = match event {
        Event::Want { .. } | Event::Enter { .. } => phase == Phase::Idle,
        Event::Receive { .. } => matches!(phase, Phase::Woken { .. }),
        Event::Take { .. } => matches!(
            phase,
            Phase::Holding { purpose: Purpose::SharedWrite | Purpose::SharedRead, .. }
        ),
        Event::Write { .. } => matches!(phase, Phase::Busy { writing: true, .. }),
        Event::Read { .. } => matches!(phase, Phase::Busy { writing: false, .. }),
        Event::Put { .. } | Event::Look { .. } | Event::Free { .. } => {
            matches!(phase, Phase::Holding { purpose: Purpose::WholeBook, .. })
        }
        Event::Open { .. } | Event::View { .. } | Event::Seek { .. } => true,
    };
    !allowed && !refuse_14_receive_by_a_waiting_lane(line, event)
}

/// 14. 03 comes to a waiting lane, with no wake yet.
pub fn refuse_14_receive_by_a_waiting_lane(line: &Line, event: &Event) -> bool {
    match *event {
        Event::Receive { lane } => {
            matches!(line.phase(lane as usize), Some(Phase::Waiting { .. }))
        }
        _ => false,
    }
}

/// 15. A seek, or a shared read's take, would put the pointer below 0 or above 65,536.
pub fn refuse_15_pointer_below_0_or_above_65536(line: &Line, event: &Event) -> bool {
    let pointer = match *event {
        Event::Seek { whence, offset } => seek_target(line, whence, offset),
        Event::Take { lane, count } => match line.phase(lane as usize) {
            Some(Phase::Holding { purpose: Purpose::SharedRead, value }) => {
                Some(i64::from(value) + i64::from(count))
            }
            _ => None,
        },
        _ => None,
    };
    match pointer {
        Some(pointer) => pointer < 0 || pointer > i64::from(MOST_POINTER),
        None => false,
    }
}

/// Where a seek would put the pointer; nothing for a whence above 2. Whence 2 counts the places
/// whose record starts below the size in the view in force (Wish 4).
pub fn seek_target(line: &Line, whence: u8, offset: i32) -> Option<i64> {
    let from = match whence {
        0 => 0,
        1 => i64::from(line.pointer),
        2 => line.view.places_below(line.size) as i64,
        _ => return None,
    };
    Some(from + i64::from(offset))
}

/// 16. The records of 04 (purpose 0), of 07, or of 0A with all gathered so far, do not fit.
pub fn refuse_16_records_do_not_fit(line: &Line, event: &Event) -> bool {
    match *event {
        Event::Take { lane, count } => match line.phase(lane as usize) {
            Some(Phase::Holding { purpose: Purpose::SharedWrite, value }) => {
                !line.fits(u64::from(value), u64::from(count))
            }
            _ => false,
        },
        Event::Put { place, .. } => !line.fits(u64::from(place), 1),
        Event::Enter { count, .. } => {
            let total = line.gathered_total() + u64::from(count);
            !line.fits(u64::from(line.pointer), total)
        }
        _ => false,
    }
}

/// 17. Any number of the report lent is 2^63 or more, or the sheet is over 65,536 bytes.
pub fn refuse_17_report_or_sheet_too_large(report: &Report, sheet_bytes: usize) -> bool {
    report.is_full() || sheet_bytes > MOST_SHEET
}

// ---- the parts of a sound line, for refusal 1 ----

fn numbers_in_range(line: &Line, book_bytes: usize) -> bool {
    line.lanes <= MOST_LANES
        && line.phases.len() == MOST_LANES
        && line.flags.len() == MOST_LANES
        && (LEAST_CAPACITY..=MOST_CAPACITY).contains(&line.capacity)
        && line.capacity as usize <= book_bytes
        && line.size <= line.capacity
        && line.pointer <= MOST_POINTER
        && line.view.keeps_rules(line.capacity)
}

/// A flag is 1 for waiting, woken and holding lanes and no others; entries past N are idle.
fn flags_match_phases(line: &Line) -> bool {
    let past_are_idle = line.phases[line.lanes..].iter().all(|phase| *phase == Phase::Idle);
    past_are_idle
        && line.phases.iter().zip(&line.flags).all(|(phase, &flag)| {
            let up = matches!(
                phase,
                Phase::Waiting { .. } | Phase::Woken { .. } | Phase::Holding { .. }
            );
            flag == u8::from(up)
        })
}

/// If a flag is 1, exactly one lane is woken or holding, and its value is the pointer.
fn one_has_the_turn(line: &Line) -> bool {
    let mut values = Vec::new();
    for phase in line.live() {
        if let Phase::Woken { value, .. } | Phase::Holding { value, .. } = phase {
            values.push(*value);
        }
    }
    !line.flags.contains(&1) || values == [line.pointer]
}

/// If a lane is gathered, all are idle or gathered, not all gathered, and the total fits.
fn gathering_is_sound(line: &Line) -> bool {
    let gathered = |phase: &Phase| matches!(phase, Phase::Gathered { .. });
    if !line.live().iter().any(gathered) {
        return true;
    }
    line.live().iter().all(|phase| gathered(phase) || *phase == Phase::Idle)
        && !line.live().iter().all(gathered)
        && line.fits(u64::from(line.pointer), line.gathered_total())
}

/// Busy lanes have a record left and regions that end at or below the pointer and
/// share no place; a writer's records fit.
fn busy_lanes_are_sound(line: &Line) -> bool {
    let mut regions: Vec<(u64, u64)> = Vec::new();
    for phase in line.live() {
        if let Phase::Busy { writing, next, left } = *phase {
            let (next, left) = (u64::from(next), u64::from(left));
            let alone = regions.iter().all(|&(a, b)| next + left <= a || b <= next);
            let fits = !writing || line.fits(next, left);
            if left == 0 || next + left > u64::from(line.pointer) || !alone || !fits {
                return false;
            }
            regions.push((next, next + left));
        }
    }
    true
}
