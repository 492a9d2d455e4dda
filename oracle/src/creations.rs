// The words of a creation behind its capacity, and the refusals of a creation.

use crate::widths::{DEFAULT_WIDTH, MAX_WIDTH, MIN_WIDTH};

// The most copies that a queue or a device can hold.
const MAX_CAPACITY: u64 = 1_048_576;

// The memory for which the port's program has room: so many entries in each table, and so many bytes of slots.
pub struct Room {
    pub entries: u64,
    pub store_bytes: u64,
}

impl Room {
    // The capacity and the width where the creation is not refused, else the number: 24, 30 or 23, tried in this order.
    pub fn judged(&self, capacity: u64, width: u64) -> Result<(usize, usize), u32> {
        if !(1..=MAX_CAPACITY).contains(&capacity) {
            return Err(24);
        }
        if !(MIN_WIDTH as u64..=MAX_WIDTH as u64).contains(&width) {
            return Err(30);
        }
        if capacity > self.entries || capacity * width > self.store_bytes {
            return Err(23);
        }
        Ok((capacity as usize, width as usize))
    }

    // The most slots of this width.
    pub fn most(&self, width: u64) -> u64 {
        self.entries.min(self.store_bytes / width)
    }
}

// The width that the words behind a capacity name, or the default one where there is none.
pub fn width_of(words: &[&str]) -> Option<u64> {
    match words {
        [] => Some(DEFAULT_WIDTH as u64),
        [width] => width.parse().ok(),
        _ => None,
    }
}
