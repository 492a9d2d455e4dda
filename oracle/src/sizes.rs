// Capacities and slot widths of creations, drawn at random.

use crate::creations::Room;
use crate::split_mix::SplitMix;
use crate::widths::{DEFAULT_WIDTH, MAX_WIDTH, MIN_WIDTH};

// Widths that are taken, at the ends of the range and beside the default one.
pub const WIDTHS: [u64; 10] = [64, 65, 200, 1500, 2047, 2048, 2049, 9000, 9215, 9216];

// Widths that are refused; two of them are 64 and 2,048 modulo 2^32.
const BAD_WIDTHS: [u64; 9] = [0, 1, 63, 9217, 1 << 16, (1 << 32) + 64, (1 << 32) + 2048, (1 << 53) + 1, u64::MAX];

const BAD_CAPACITIES: [u64; 7] = [0, 0, (1 << 20) + 1, 1 << 32, (1 << 32) + 1, 1 << 53, u64::MAX];

// What a creation is given; no width is named where the line leaves it out.
pub struct Sizes {
    capacity: u64,
    width: Option<u64>,
}

impl Sizes {
    // Most are taken; of the others some have more than one fault.
    pub fn drawn(r: &mut SplitMix, room: &Room, capacity: fn(&mut SplitMix) -> u64) -> Sizes {
        match r.below(50) {
            0 => Sizes { capacity: r.pick(&BAD_CAPACITIES), width: Some(r.pick(&BAD_WIDTHS)) },
            1 => Sizes { capacity: r.pick(&BAD_CAPACITIES), width: width(r) },
            2 => Sizes { capacity: capacity(r), width: Some(r.pick(&BAD_WIDTHS)) },
            3 => Sizes { capacity: too_many(r, room), width: Some(r.pick(&BAD_WIDTHS)) },
            4 => Sizes { capacity: too_many(r, room), width: width(r) },
            5..=7 => Sizes::at_the_edge(r, room),
            _ => {
                let width = width(r);
                Sizes { capacity: capacity(r).min(most(room, width)), width }
            }
        }
    }

    // As many slots as there is room for, one less, or one more, which is refused.
    fn at_the_edge(r: &mut SplitMix, room: &Room) -> Sizes {
        let width = width(r);
        let beside = r.below(3) as u64;
        Sizes { capacity: most(room, width) - 1 + beside, width }
    }

    // What the creation gives where there is this room.
    pub fn judged(&self, room: &Room) -> Result<(usize, usize), u32> {
        room.judged(self.capacity, self.width.unwrap_or(DEFAULT_WIDTH as u64))
    }

    // The words of a creation line.
    pub fn words(&self) -> String {
        match self.width {
            Some(width) => format!("{} {width}", self.capacity),
            None => self.capacity.to_string(),
        }
    }
}

// A width that is taken, or none.
fn width(r: &mut SplitMix) -> Option<u64> {
    match r.below(20) {
        0..=4 => None,
        5..=8 => Some((MIN_WIDTH + r.below(MAX_WIDTH - MIN_WIDTH + 1)) as u64),
        _ => Some(r.pick(&WIDTHS)),
    }
}

fn most(room: &Room, width: Option<u64>) -> u64 {
    room.most(width.unwrap_or(DEFAULT_WIDTH as u64))
}

// A capacity in range for which the tables are too short.
fn too_many(r: &mut SplitMix, room: &Room) -> u64 {
    r.pick(&[room.entries + 1, 1 << 19, 1 << 20])
}
