//! Damage to the state of a line: one sort for each thing that a reader of states can overlook.

use super::built::{any_built, bad_view, built, Shape};
use super::damage_bytes::*;
use super::damage_line::*;
use super::walk::Walk;
use crate::line::Line;
use crate::random::Random;
use crate::state::{written, STATE_BYTES};

/// The line that is damaged.
#[derive(Clone, Copy)]
enum Base {
    /// Reached by calls, or built.
    Any,
    Of(Shape),
    Unopened,
}

#[derive(Clone, Copy)]
enum How {
    Bytes(fn(&mut Random, &mut [u8])),
    Line(fn(&mut Random, &mut Line)),
}

/// A sort of damage.
pub struct Damage {
    pub name: &'static str,
    base: Base,
    how: How,
}

const fn bytes(name: &'static str, base: Base, how: fn(&mut Random, &mut [u8])) -> Damage {
    Damage { name, base, how: How::Bytes(how) }
}

const fn line(name: &'static str, base: Base, how: fn(&mut Random, &mut Line)) -> Damage {
    Damage { name, base, how: How::Line(how) }
}

const ANY: Base = Base::Any;
const IDLE: Base = Base::Of(Shape::Idle);
const BUSY: Base = Base::Of(Shape::Busy);
const TURN: Base = Base::Of(Shape::Turn);
const GATHERED: Base = Base::Of(Shape::Gathered);

/// All sorts of damage, in the order in which they come. Some leave another sound line.
pub const DAMAGES: [Damage; 61] = [
    bytes("one byte changed", ANY, one_byte),
    bytes("two bytes swapped", ANY, two_swapped),
    bytes("mark changed", ANY, mark),
    bytes("layout changed", ANY, layout),
    bytes("layout with a high byte", ANY, layout_high),
    bytes("first reserved byte set", ANY, |random, bytes| reserved(random, bytes, 0)),
    bytes("middle reserved byte set", ANY, reserved_middle),
    bytes("last reserved byte set", ANY, |random, bytes| reserved(random, bytes, 3)),
    bytes("phase above 6", ANY, phase_above),
    bytes("purpose above 2", TURN, purpose_above),
    bytes("idle with a purpose", ANY, idle_purpose),
    bytes("idle with records", ANY, idle_records),
    bytes("idle with a place", ANY, idle_place),
    bytes("waiting with records", TURN, |random, bytes| spare_records(random, bytes, &[1], 1)),
    bytes("waiting with a place", TURN, waiting_place),
    bytes("woken with records", TURN, |random, bytes| spare_records(random, bytes, &[2, 3], 2)),
    bytes("holding with records", TURN, |random, bytes| spare_records(random, bytes, &[2, 3], 3)),
    bytes("writing with another purpose", BUSY, writing_purpose),
    bytes("reading with another purpose", BUSY, reading_purpose),
    bytes("gathered with a purpose", GATHERED, gathered_purpose),
    bytes("gathered with a place", GATHERED, gathered_place),
    line("flag of 2", ANY, flag_of_2),
    line("flag dropped", TURN, flag_dropped),
    line("flag raised", TURN, flag_raised),
    line("N above 128", ANY, lanes_above),
    line("N off by one", ANY, lanes_off),
    line("N is 0", ANY, |_, line| line.lanes = 0),
    line("pointer off by one", ANY, pointer_off),
    line("pointer above 65,536", ANY, pointer_above),
    line("size off by one", ANY, size_off),
    line("size above the capacity", ANY, size_above),
    line("capacity below 8", IDLE, capacity_below),
    line("capacity above 65,536", IDLE, capacity_above),
    line("capacity off by one", ANY, capacity_off),
    line("view broken", ANY, |random, line| line.view = bad_view(random, line)),
    line("displacement above the capacity", IDLE, displacement_above),
    line("extent out of range", IDLE, extent_out),
    line("no blocks", IDLE, no_blocks),
    line("blocks above 8", IDLE, blocks_above),
    line("block of length 0", IDLE, block_of_0),
    line("block below the end before", IDLE, block_below),
    line("last block past the extent", IDLE, block_past),
    line("unused block not zero", IDLE, block_unused),
    line("regions overlap by one", BUSY, overlap),
    line("region past the pointer", BUSY, past_pointer),
    line("no record left", BUSY, none_left),
    line("writer does not fit", BUSY, writer_unfit),
    line("entry past N", ANY, entry_past),
    line("flagged entry past N", TURN, flagged_past),
    line("flag past N", TURN, flag_past),
    line("second lane with the turn", TURN, second_turn),
    line("no lane with the turn", TURN, no_turn),
    line("value off", TURN, value_off),
    line("gathered beside another", GATHERED, gathered_beside),
    line("all gathered", GATHERED, all_gathered),
    line("gathered one too many", GATHERED, gathered_too_many),
    line("unopened with more", Base::Unopened, unopened_with_more),
    line("32 bits: next + left", BUSY, wrap_region),
    line("16 bits: start + length", IDLE, wrap_block),
    line("16 bits: counts", IDLE, wrap_counts),
    line("32 bits: position", IDLE, wrap_position),
];

impl Damage {
    /// A sound line to be damaged.
    pub fn base(&self, random: &mut Random) -> Line {
        match self.base {
            Base::Any if random.one_in(2) => reached(random),
            Base::Any => any_built(random),
            Base::Of(shape) => built(random, shape),
            Base::Unopened => Line::unopened(),
        }
    }

    /// The state bytes of the damaged line.
    pub fn done_to(&self, random: &mut Random, line: &Line) -> [u8; STATE_BYTES] {
        let mut line = line.clone();
        match self.how {
            How::Bytes(how) => {
                let mut bytes = written(&line);
                how(random, &mut bytes);
                bytes
            }
            How::Line(how) => {
                how(random, &mut line);
                written(&line)
            }
        }
    }
}

/// The open line in the middle of a made-up sheet.
pub fn reached(random: &mut Random) -> Line {
    loop {
        let limit = random.pick(&[30, 100, 300, 900]);
        let mut walk = Walk::start(random, limit);
        walk.go_on();
        if walk.line().is_open() {
            return walk.machine.line;
        }
    }
}
