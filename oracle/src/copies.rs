// Copies in a queue: the bytes that a script gives them, and the line that says which one was released.

use crate::impair::Queued;
use crate::print::{count, float, hex};
use crate::widths::LONGEST;

pub fn released(copy: &Queued) -> String {
    let key = [float(copy.due_ms), count(copy.seq), float(copy.arrival_ms), count(copy.route), count(copy.copy_id as u64)];
    format!("released{}{}{}", key.concat(), count(copy.data.len() as u64), hex(sum(&copy.data)))
}

// The bytes that a script gives by their number and a seed; at most one more than the widest slot has, since all longer packets are refused alike.
pub fn bytes(len: u64, fill: u64) -> Vec<u8> {
    let mut x = fill;
    let mut next = || {
        x = x.wrapping_mul(6364136223846793005).wrapping_add(1442695040888963407);
        (x >> 56) as u8
    };
    (0..len.min(LONGEST as u64 + 1)).map(|_| next()).collect()
}

// FNV-1a of 64 bits.
fn sum(bytes: &[u8]) -> u64 {
    bytes.iter().fold(0xcbf2_9ce4_8422_2325, |h, byte| (h ^ *byte as u64).wrapping_mul(0x100_0000_01b3))
}
