// Prints the generator's draws, direction seeds, maxima and minima, as the program crates/vectors does in crates/vectors/src/oracle_draws.rt.
mod config;
mod floats;
mod impair;
mod print;
mod rng;
mod stats;

use floats::FLOATS;
use impair::direction_seed;
use print::{float, hex};
use rng::Rng;

const SEEDS: [u64; 12] = [
    0,
    1,
    2,
    1234567,
    0xFFFF_FFFF,
    0x1_0000_0000,
    0x20_0000_0000_0000,
    0x61C8_8646_80B5_83EB,
    0x7FFF_FFFF_FFFF_FFFF,
    0x8000_0000_0000_0000,
    0x9E37_79B9_7F4A_7C15,
    0xFFFF_FFFF_FFFF_FFFF,
];

const SALTS: [u64; 6] = [0, 1, 2, 0xFFFF_FFFF, 0x8000_0000_0000_0000, 0xFFFF_FFFF_FFFF_FFFF];

fn line(name: &str, seed: u64, rest: impl Iterator<Item = String>) {
    println!("{name}{}{}", hex(seed), rest.collect::<String>());
}

fn main() {
    for seed in SEEDS {
        let mut rng = Rng::new(seed);
        line("next_u64", seed, (0..8).map(|_| hex(rng.next_u64())));
        let mut rng = Rng::new(seed);
        line("next_f64", seed, (0..8).map(|_| float(rng.next_f64())));
        line("direction_seed", seed, SALTS.into_iter().map(|salt| hex(direction_seed(seed, salt))));
        let mut rng = Rng::new(seed);
        let fold = (0..1_000_000).fold(0u64, |fold, _| {
            let seed = direction_seed(rng.next_u64(), fold);
            (seed ^ rng.next_f64().to_bits()).wrapping_mul(0x100_0000_01B3)
        });
        line("long_run", seed, std::iter::once(hex(fold)));
    }
    for x in FLOATS {
        for y in FLOATS {
            // of -0 and 0 Rust may give either
            if x != 0.0 || y != 0.0 {
                println!("max_min{}{}{}{}", float(x), float(y), float(x.max(y)), float(x.min(y)));
            }
        }
    }
}
