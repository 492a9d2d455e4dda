// The benchmark's loop of arrivals, as the program crates/bench_arrivals runs it.
mod arguments;
mod config;
mod impair;
mod rng;
mod stats;

use arguments::arguments;
use config::parse_config;
use impair::{ArrivalEngine, Decision};
use std::io::Read;

fn main() {
    let mut text = Vec::new();
    std::io::stdin().read_to_end(&mut text).unwrap();
    decides(&text);
}

fn decides(text: &[u8]) {
    let mut engine = ArrivalEngine::new(parse_config(&arguments(text)).unwrap().c2s, 1);
    let (mut now_ms, mut sum) = (0.0, 0u64);
    for i in 0..10_000_000 {
        sum = sum.wrapping_add(weight(engine.decide(now_ms, i % 1500)));
        now_ms += 0.001;
    }
    let s = &engine.stats;
    println!("{}\n{}\n{}\n{}", s.received_pkts, s.received_bytes, s.dropped_random, s.dropped_blackout);
    println!("{}\n{}\n{}\n{sum}", s.duplicates, s.reorder_hits, s.rate_deferred);
}

// The bits of the due; a small number for each other decision.
fn weight(decision: Decision) -> u64 {
    match decision {
        Decision::Enqueue { due_ms, .. } => due_ms.to_bits(),
        Decision::KillRst => 6,
        Decision::Drop(reason) => 1 + ["random", "ge", "mtu", "blackout", "kill-hold"].iter().position(|r| *r == reason).unwrap() as u64,
    }
}
