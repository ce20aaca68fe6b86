//! Lines built directly: sound, though calls need not lead there.

use super::plain;
use super::walk::{is_idle, Walk};
use crate::event::Event;
use crate::line::*;
use crate::random::Random;

/// What the lanes of a built line do.
#[derive(Clone, Copy, PartialEq, Eq, Debug)]
pub enum Shape {
    /// All idle.
    Idle,
    /// Two lanes or more are busy, with regions that often touch, and some may be flagged.
    Busy,
    /// One lane holds or is woken and one or more wait; the others are idle.
    Turn,
    /// Some lanes are gathered, not all.
    Gathered,
}

const SHAPES: [Shape; 4] = [Shape::Busy, Shape::Busy, Shape::Turn, Shape::Gathered];

/// A sound line of any shape.
pub fn any_built(random: &mut Random) -> Line {
    let shape = random.pick(&SHAPES);
    built(random, shape)
}

/// A sound line of two lanes or more.
pub fn built(random: &mut Random, shape: Shape) -> Line {
    let lanes = match random.below(4) {
        0 => random.between(2, MOST_LANES as u64) as usize,
        _ => random.pick(&[2, 3, 12, 63, 64, 64, 65, 127, 128, 128]),
    };
    let any = plain::good_capacity(random);
    let capacity = random.pick(&[8, 64, 1_000, 8_191, 8_192, 65_536, any]);
    let mut line = Line { lanes, capacity, ..Line::unopened() };
    line.view = good_view(random, &line);
    let any = random.below(u64::from(capacity) + 1) as u32;
    line.size = random.pick(&[0, capacity, any]);
    line.pointer = some_pointer(random, &line);
    match shape {
        Shape::Idle => {}
        Shape::Busy => {
            put_busy(random, &mut line);
            if random.one_in(2) {
                put_turn(random, &mut line, 0);
            }
        }
        Shape::Turn => put_turn(random, &mut line, 2),
        Shape::Gathered => put_gathered(random, &mut line),
    }
    line
}

/// A view that keeps the rules on this line.
fn good_view(random: &mut Random, line: &Line) -> View {
    if random.one_in(3) {
        return View::plain();
    }
    let event = Walk::from(random, line.clone(), Vec::new(), 0).good_view();
    view_of(event)
}

/// A view that breaks a rule on this line.
pub fn bad_view(random: &mut Random, line: &Line) -> View {
    let event = Walk::from(random, line.clone(), Vec::new(), 0).bad_view();
    view_of(event)
}

fn view_of(event: Event) -> View {
    let Event::View { displacement, extent, blocks, list } = event else { unreachable!("a view") };
    View { displacement, extent, blocks, list }
}

/// At the ends of the range, about the end of what fits, or low.
fn some_pointer(random: &mut Random, line: &Line) -> u32 {
    let room = line.room(0);
    match random.below(6) {
        0 => random.pick(&[0, MOST_POINTER]),
        1 => random.below(u64::from(MOST_POINTER) + 1) as u32,
        2 => room,
        3 => room.saturating_sub(random.between(1, 9) as u32),
        _ => random.below(12) as u32,
    }
}

/// The lanes in any order.
fn shuffled(random: &mut Random, line: &Line) -> Vec<usize> {
    let mut lanes: Vec<usize> = (0..line.lanes).collect();
    random.shuffle(&mut lanes);
    lanes
}

/// Regions one after the other on lanes in any order, most of them touching; the pointer at the
/// end of the last one or above. Lanes whose records fit may be writers.
fn put_busy(random: &mut Random, line: &mut Line) {
    let lanes = shuffled(random, line);
    let most = random.pick(&[2, line.lanes as u64, line.lanes as u64]);
    let count = random.between(2, most) as usize;
    let mut at = random.pick(&[0, 0, 0, line.room(0).saturating_sub(20), 60_000]);
    for &lane in &lanes[..count] {
        let next = at + random.pick(&[0, 0, 0, 0, 1, 3]);
        let left = random.between(1, 4) as u32;
        let writing = line.fits(u64::from(next), u64::from(left)) && !random.one_in(4);
        line.phases[lane] = Phase::Busy { writing, next, left };
        at = next + left;
    }
    if random.one_in(6) && count < line.lanes {
        let left = (MOST_POINTER - at).min(65_535);
        line.phases[lanes[count]] = Phase::Busy { writing: false, next: at, left };
        at += left;
    }
    line.pointer = (at + random.pick(&[0, 0, 0, 1, 50])).min(MOST_POINTER);
}

fn some_purpose(random: &mut Random) -> Purpose {
    random.pick(&[Purpose::SharedWrite, Purpose::SharedRead, Purpose::WholeBook])
}

/// Of the idle lanes one holds or is woken; some others wait, or all. At least so many are flagged
/// where there are as many.
fn put_turn(random: &mut Random, line: &mut Line, least: u64) {
    let mut lanes = shuffled(random, line);
    lanes.retain(|&lane| is_idle(&line.phases[lane]));
    let most = lanes.len() as u64;
    let any = random.below(most + 1).max(least);
    let count = random.pick(&[2, most, any]).min(most) as usize;
    for (nth, &lane) in lanes[..count].iter().enumerate() {
        let (purpose, value) = (some_purpose(random), line.pointer);
        line.flags[lane] = 1;
        line.phases[lane] = match nth {
            0 if random.one_in(2) => Phase::Woken { purpose, value },
            0 => Phase::Holding { purpose, value },
            _ => Phase::Waiting { purpose },
        };
    }
}

/// Some lanes, or all but one, with counts that fit together; often they fill what is left.
fn put_gathered(random: &mut Random, line: &mut Line) {
    let lanes = shuffled(random, line);
    let all_but_one = line.lanes - 1;
    let any = random.between(1, all_but_one as u64) as usize;
    let count = random.pick(&[1, all_but_one, any]);
    let mut room = line.room(line.pointer);
    for (nth, &lane) in lanes[..count].iter().enumerate() {
        let last = nth + 1 == count && random.one_in(2);
        let records = if last { room } else { random.below(4) as u32 }.min(room);
        room -= records;
        line.phases[lane] = Phase::Gathered { count: records as u16 };
    }
}
