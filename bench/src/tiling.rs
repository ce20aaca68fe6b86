//! The view of the in-place program: all that a position needs, worked out when the view is set.

/// The record within the tile of each record that the view shows, and the numbers of the rule.
#[derive(Clone)]
pub struct Tiling {
    displacement: u64,
    extent: u64,
    /// The records shown of a tile, and 2^63 / shown + 1, which stands in for the division.
    shown: u32,
    reciprocal: u64,
    record: [u16; 1024],
}

/// A view as an event gives it, tested.
pub struct View {
    displacement: u32,
    extent: u16,
    used: usize,
    block: [(u16, u16); 8],
}

impl Tiling {
    pub fn plain() -> Tiling {
        let mut tiling =
            Tiling { displacement: 0, extent: 0, shown: 0, reciprocal: 0, record: [0; 1024] };
        let mut block = [(0, 0); 8];
        block[0] = (0, 1);
        tiling.set(&View { displacement: 0, extent: 1, used: 1, block });
        tiling
    }

    /// The view of an event's body, or nothing if it breaks a rule.
    pub fn read(body: &[u8; 39], capacity: u32) -> Option<View> {
        let displacement = u32::from_be_bytes([body[0], body[1], body[2], body[3]]);
        let extent = u16::from_be_bytes([body[4], body[5]]);
        let used = body[6] as usize;
        if displacement > capacity || !(1..=1024).contains(&extent) || !(1..=8).contains(&used) {
            return None;
        }
        let mut block = [(0, 0); 8];
        for (to, from) in block.iter_mut().zip(body[7..].chunks_exact(4)) {
            let start = u16::from_be_bytes([from[0], from[1]]);
            let length = u16::from_be_bytes([from[2], from[3]]);
            *to = (start, length);
        }
        let view = View { displacement, extent, used, block };
        view.blocks_ok().then_some(view)
    }

    pub fn set(&mut self, view: &View) {
        let mut shown = 0;
        for &(start, length) in &view.block[..view.used] {
            for (to, record) in self.record[shown..][..length as usize].iter_mut().zip(start..) {
                *to = record;
            }
            shown += length as usize;
        }
        self.displacement = view.displacement as u64;
        self.extent = view.extent as u64;
        self.shown = shown as u32;
        self.reciprocal = (1 << 63) / shown as u64 + 1;
    }

    /// The position of a place. The tile is place / shown rounded down: the product with the
    /// reciprocal is over the exact quotient by at most place / 2^63, which is below 1 / shown.
    #[inline(always)]
    pub fn position(&self, place: u32) -> u64 {
        let product = (place as u64 * 2) as u128 * self.reciprocal as u128;
        let tile = (product >> 64) as u64;
        let within = place as u64 - tile * self.shown as u64;
        let record = self.record[within as usize & 1023] as u64;
        self.displacement + 8 * (tile * self.extent + record)
    }

    /// The places whose record starts below the size: those of the whole tiles below it, and those
    /// before it in the tile that it cuts.
    pub fn end(&self, size: u32) -> u32 {
        let records = (size as u64).saturating_sub(self.displacement).div_ceil(8);
        let cut = (records % self.extent) as u16;
        let whole = (records / self.extent) as u32 * self.shown;
        whole + self.record[..self.shown as usize].partition_point(|&record| record < cut) as u32
    }
}

impl View {
    /// Whether the blocks in use are in order and within the extent, and the others zero.
    fn blocks_ok(&self) -> bool {
        let mut end = 0;
        for &(start, length) in &self.block[..self.used] {
            if length < 1 || (start as u32) < end {
                return false;
            }
            end = start as u32 + length as u32;
        }
        end <= self.extent as u32 && self.block[self.used..].iter().all(|&b| b == (0, 0))
    }
}
