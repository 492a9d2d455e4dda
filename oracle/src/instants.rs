// Instants and dues: their bits in a script, and floats at the edges.

use crate::split_mix::SplitMix;

// The last instant that refusal 21 lets through.
pub const LAST: f64 = (1u64 << 53) as f64;

// Whether refusal 21 lets an instant through: it is no NaN, has no sign bit set and is at most 2^53.
pub fn is_instant(now: f64) -> bool {
    now.is_sign_positive() && now <= LAST
}

pub fn bits(x: f64) -> String {
    format!("{:016x}", x.to_bits())
}

// The float of 16 lower-case hexadecimal digits.
pub fn float_of(word: &str) -> Option<f64> {
    let is_digit = |byte: u8| matches!(byte, b'0'..=b'9' | b'a'..=b'f');
    if word.len() != 16 || !word.bytes().all(is_digit) {
        return None;
    }
    u64::from_str_radix(word, 16).ok().map(f64::from_bits)
}

// The float itself, or a neighbour of it.
pub fn beside(r: &mut SplitMix, x: f64) -> f64 {
    r.pick(&[x, x, x.next_down(), x.next_up()])
}

// The nearest instant that refusal 21 lets through.
pub fn within(x: f64) -> f64 {
    if x > 0.0 { x.min(LAST) } else { 0.0 }
}
