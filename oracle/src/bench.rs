// The benchmark's loops, as the program crates/bench runs them.
mod arguments;
mod config;
mod impair;
mod rng;
mod stats;

use arguments::arguments;
use config::parse_config;
use impair::SendAccountant;
use rng::Rng;
use std::io::Read;

fn main() {
    let mut text = Vec::new();
    std::io::stdin().read_to_end(&mut text).unwrap();
    if text.is_empty() {
        sends();
    } else {
        parses(&text);
    }
}

fn sends() {
    let mut rng = Rng::new(1);
    let mut accountant = SendAccountant::default();
    for _ in 0..50_000_000 {
        let drawn = rng.next_u64();
        accountant.on_send((drawn % 2048) as usize, (drawn % 16384) as f64 * 0.5);
    }
    let l = &accountant.latency;
    let ordered = l.min_ms < l.max_ms && l.max_ms < l.sum_ms;
    println!("{}\n{}\n{}\n{}", accountant.sent_pkts, accountant.sent_bytes, l.count, ordered as u8);
    println!("{}\n{}", l.hist[0], l.hist[11]);
}

// The arguments are parted once, before the loop.
fn parses(text: &[u8]) {
    let arguments = arguments(text);
    let turns = 20_000_000 / (text.len() as u64 + 100);
    let (mut taken, mut sum) = (0u64, 0u64);
    for _ in 0..turns {
        let config = parse_config(std::hint::black_box(&arguments)).unwrap();
        taken += 1;
        sum += config.seed + config.c2s.blackouts.len() as u64;
    }
    println!("{turns}\n{taken}\n{sum}");
}
