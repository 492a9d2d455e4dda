// The benchmark's loop of the queue: the port's (crates/bench_queue, linked as a static library) and the same loop over the Rust source, in turns.
mod config;
mod impair;
mod lent;
mod rng;
mod stats;
mod timing;
mod widths;

use impair::ImpairQueue;
use lent::Memory;
use std::time::Instant;
use timing::{median, per_round, Ran};
use widths::DEFAULT_WIDTH;

const LENGTH: usize = 200;
const SOURCES: u64 = 16;
const SPREAD_MS: f64 = 1000.0;
const TURNS: usize = 5;
const SEED: u64 = 0x9E37_79B9_7F4A_7C15;

// A capacity, how many copies are held, and how many rounds of one push and one release are timed.
struct Case {
    cap: usize,
    held: usize,
    rounds: u64,
}

const CASES: [Case; 4] = [
    Case { cap: 1_024, held: 100, rounds: 10_000_000 },
    Case { cap: 1_048_576, held: 100, rounds: 10_000_000 },
    Case { cap: 1_048_576, held: 100_000, rounds: 3_000_000 },
    Case { cap: 1_048_576, held: 500_000, rounds: 3_000_000 },
];

#[link(name = "bench_queue", kind = "static")]
extern "C" {
    fn bench_queue(
        win: *mut u32,
        win_len: usize,
        free: *mut u32,
        free_len: usize,
        dues: *mut f64,
        dues_len: usize,
        seqs: *mut u64,
        seqs_len: usize,
        arrivals: *mut f64,
        arrivals_len: usize,
        routes: *mut u64,
        routes_len: usize,
        copy_ids: *mut u32,
        copy_ids_len: usize,
        lengths: *mut u32,
        lengths_len: usize,
        store: *mut u8,
        store_len: usize,
        source: *const u8,
        source_len: usize,
        sent: *mut u8,
        sent_len: usize,
        cap: usize,
        held: usize,
        count: u64,
        seed: u64,
    ) -> u64;
}

fn port(memory: &mut Memory, source: &[u8], cap: usize, held: usize, count: u64) -> Ran {
    let m = memory;
    let start = Instant::now();
    let sum = unsafe {
        bench_queue(
            m.win.as_mut_ptr(),
            m.win.len(),
            m.free.as_mut_ptr(),
            m.free.len(),
            m.dues.as_mut_ptr(),
            m.dues.len(),
            m.seqs.as_mut_ptr(),
            m.seqs.len(),
            m.arrivals.as_mut_ptr(),
            m.arrivals.len(),
            m.routes.as_mut_ptr(),
            m.routes.len(),
            m.copy_ids.as_mut_ptr(),
            m.copy_ids.len(),
            m.lengths.as_mut_ptr(),
            m.lengths.len(),
            m.store.as_mut_ptr(),
            m.store.len(),
            source.as_ptr(),
            source.len(),
            m.sent.as_mut_ptr(),
            m.sent.len(),
            cap,
            held,
            count,
            SEED,
        )
    };
    Ran { took: start.elapsed(), sum, sent: m.sent.clone() }
}

fn rust(source: &[u8], cap: usize, held: usize, count: u64) -> Ran {
    let start = Instant::now();
    let mut turns = Turns { queue: ImpairQueue::new(cap), sent: vec![1; DEFAULT_WIDTH], now_ms: 0.0, draw: SEED, sum: 0 };
    for _ in 0..count {
        turns.enter(source);
        if turns.queue.len() > held {
            turns.leave();
        }
    }
    Ran { took: start.elapsed(), sum: turns.sum, sent: turns.sent }
}

struct Turns {
    queue: ImpairQueue,
    sent: Vec<u8>,
    now_ms: f64,
    draw: u64,
    sum: u64,
}

impl Turns {
    fn enter(&mut self, source: &[u8]) {
        self.draw ^= self.draw << 13;
        self.draw ^= self.draw >> 7;
        self.draw ^= self.draw << 17;
        let due_ms = self.now_ms + (self.draw >> 11) as f64 * (1.0 / 9007199254740992.0) * SPREAD_MS;
        let at = (self.draw % SOURCES) as usize * DEFAULT_WIDTH;
        self.queue.push(due_ms, self.now_ms, self.draw, 0, source[at..at + LENGTH].to_vec());
    }

    fn leave(&mut self) {
        self.now_ms = self.queue.next_due().unwrap_or(self.now_ms);
        for copy in self.queue.pop_due(self.now_ms) {
            self.sent[..copy.data.len()].copy_from_slice(&copy.data);
            let waited = if copy.arrival_ms < copy.due_ms { 1000 } else { 0 };
            let weight = copy.seq.wrapping_add(copy.route).wrapping_add(self.sent[0] as u64 + copy.copy_id as u64 + waited);
            self.sum = self.sum.rotate_left(5) ^ weight;
        }
    }
}

fn in_turns(case: &Case, memory: &mut Memory, source: &[u8]) {
    let Case { cap, held, rounds } = *case;
    let before = held as u64;
    let (mut ports, mut rusts) = (Vec::new(), Vec::new());
    for _ in 0..TURNS {
        let filled = port(memory, source, cap, held, before);
        let all = port(memory, source, cap, held, before + rounds);
        ports.push(per_round(&filled, &all, rounds));
        let by_rust = rust(source, cap, held, before);
        let all_by_rust = rust(source, cap, held, before + rounds);
        rusts.push(per_round(&by_rust, &all_by_rust, rounds));
        assert_eq!(all.sum, all_by_rust.sum, "the sums differ");
        assert_eq!(all.sent, all_by_rust.sent, "the last bytes differ");
    }
    println!("capacity {cap}, {held} held, {rounds} rounds of one push and one release; same sum");
    for (name, times) in [("port", &ports), ("rust", &rusts)] {
        let shown: Vec<String> = times.iter().map(|t| format!("{t:.1}")).collect();
        println!("  {name}, ns for a round: {}; median {:.1}", shown.join(" "), median(times));
    }
    println!("  port to rust, medians: {:.2}", median(&ports) / median(&rusts));
}

fn main() {
    let source = lent::payloads(SOURCES as usize, DEFAULT_WIDTH);
    for case in &CASES {
        in_turns(case, &mut Memory::new(case.cap, DEFAULT_WIDTH), &source);
    }
}
