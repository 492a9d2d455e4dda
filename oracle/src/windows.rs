// Prints which windows hold which instants, as the program crates/vectors does in crates/vectors/src/oracle_windows.rt.
mod config;
mod floats;
mod print;

use config::Window;
use floats::FLOATS;
use print::{count, float};

const NEAR: [f64; 8] = [
    9.999999999999998,
    10.0,
    10.000000000000002,
    19.999999999999996,
    20.0,
    20.000000000000004,
    18446744073709549568.0,
    18446744073709551616.0,
];

const BOUNDS: [(u64, u64); 8] = [
    (0, 0),
    (0, 1),
    (10, 20),
    (20, 10),
    (9007199254740991, 9007199254740993),
    (9007199254740993, 9007199254740995),
    (0, 18446744073709551615),
    (18446744073709550591, 18446744073709550592),
];

fn main() {
    for (start_ms, end_ms) in BOUNDS {
        let window = Window { start_ms, end_ms };
        for t in FLOATS.into_iter().chain(NEAR) {
            println!("contains{}{}{}{}", count(start_ms), count(end_ms), float(t), count(window.contains(t) as u64));
        }
    }
}
