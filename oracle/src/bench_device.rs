// The benchmark's loop of the device: the port's (crates/bench_device, linked as a static library) and the same loop over the Rust source, in turns.
mod arguments;
mod config;
mod impair;
mod lent;
mod rng;
mod stats;
mod timing;
mod widths;

use arguments::arguments;
use config::parse_config;
use impair::{direction_seed, ArrivalEngine, Decision, ImpairQueue, SendAccountant};
use lent::Memory;
use std::time::Instant;
use timing::{median, per_round, Ran};
use widths::{DEFAULT_WIDTH, MAX_WIDTH, MIN_WIDTH};

const SOURCES: u64 = 16;
const STEP_MS: f64 = 0.01;
const SALT: u64 = 1;
const TURNS: usize = 5;

// How wide a slot is, and how many bytes a packet has.
#[derive(Clone, Copy)]
struct Bytes {
    width: usize,
    length: u32,
}

const SMALL_BYTES: Bytes = Bytes { width: MIN_WIDTH, length: 60 };
const USUAL_BYTES: Bytes = Bytes { width: DEFAULT_WIDTH, length: 200 };
const LARGE_BYTES: Bytes = Bytes { width: MAX_WIDTH, length: 9_000 };

// A capacity; the bytes of slots and packets; the delay, twice which is the jitter, so that a copy waits twice the delay in the mean; the number of windows
// that lie ahead; and how many rounds are timed.
struct Case {
    cap: usize,
    bytes: Bytes,
    delay_ms: f64,
    windows: u64,
    rounds: u64,
}

const SMALL: usize = 1_024;
const MIDDLE: usize = 131_072;
const LARGE: usize = 1_048_576;

const CASES: [Case; 12] = [
    Case { cap: SMALL, bytes: USUAL_BYTES, delay_ms: 0.5, windows: 0, rounds: 5_000_000 },
    Case { cap: SMALL, bytes: USUAL_BYTES, delay_ms: 0.5, windows: 100, rounds: 3_000_000 },
    Case { cap: LARGE, bytes: USUAL_BYTES, delay_ms: 0.5, windows: 0, rounds: 5_000_000 },
    Case { cap: LARGE, bytes: USUAL_BYTES, delay_ms: 0.5, windows: 100, rounds: 3_000_000 },
    Case { cap: LARGE, bytes: USUAL_BYTES, delay_ms: 500.0, windows: 0, rounds: 2_000_000 },
    Case { cap: LARGE, bytes: USUAL_BYTES, delay_ms: 500.0, windows: 100, rounds: 2_000_000 },
    Case { cap: LARGE, bytes: USUAL_BYTES, delay_ms: 2_500.0, windows: 0, rounds: 2_000_000 },
    Case { cap: LARGE, bytes: USUAL_BYTES, delay_ms: 2_500.0, windows: 100, rounds: 2_000_000 },
    Case { cap: SMALL, bytes: SMALL_BYTES, delay_ms: 0.5, windows: 0, rounds: 5_000_000 },
    Case { cap: LARGE, bytes: SMALL_BYTES, delay_ms: 500.0, windows: 0, rounds: 2_000_000 },
    Case { cap: SMALL, bytes: LARGE_BYTES, delay_ms: 0.5, windows: 0, rounds: 1_000_000 },
    Case { cap: MIDDLE, bytes: LARGE_BYTES, delay_ms: 500.0, windows: 0, rounds: 500_000 },
];

impl Case {
    fn jitter_ms(&self) -> f64 {
        self.delay_ms * 2.0
    }

    fn reorder_delay_ms(&self) -> f64 {
        self.delay_ms / 5.0
    }

    // The option text, each argument ended by a zero byte.
    fn text(&self) -> Vec<u8> {
        let mut words = vec![
            "--seed=7".to_string(),
            "--c2s-loss=0.01".to_string(),
            "--c2s-duplicate=0.01".to_string(),
            format!("--c2s-delay-ms={}", self.delay_ms),
            format!("--c2s-jitter-ms={}", self.jitter_ms()),
            "--c2s-reorder=0.01".to_string(),
            format!("--c2s-reorder-delay-ms={}", self.reorder_delay_ms()),
        ];
        words.extend((0..self.windows).map(|i| format!("--c2s-blackout={}:{}", 900_000_000 + i, 900_000_001 + i)));
        words.iter().flat_map(|word| word.bytes().chain([0])).collect()
    }

    // After so many rounds as many copies leave as enter.
    fn filling(&self) -> u64 {
        ((self.delay_ms + self.jitter_ms() + self.reorder_delay_ms()) / STEP_MS) as u64
    }
}

#[link(name = "bench_device", kind = "static")]
extern "C" {
    fn bench_device(
        win: *mut u32,
        win_len: usize,
        free: *mut u32,
        free_len: usize,
        dues: *mut f64,
        dues_len: usize,
        seqs: *mut u64,
        seqs_len: usize,
        arrivals: *mut f64,
        arrivals_len: usize,
        routes: *mut u64,
        routes_len: usize,
        copy_ids: *mut u32,
        copy_ids_len: usize,
        lengths: *mut u32,
        lengths_len: usize,
        store: *mut u8,
        store_len: usize,
        text: *const u8,
        text_len: usize,
        source: *const u8,
        source_len: usize,
        sent: *mut u8,
        sent_len: usize,
        cap: usize,
        width: usize,
        length: u32,
        count: u64,
    ) -> u64;
}

fn port(memory: &mut Memory, text: &[u8], source: &[u8], case: &Case, count: u64) -> Ran {
    let m = memory;
    let start = Instant::now();
    let sum = unsafe {
        bench_device(
            m.win.as_mut_ptr(),
            m.win.len(),
            m.free.as_mut_ptr(),
            m.free.len(),
            m.dues.as_mut_ptr(),
            m.dues.len(),
            m.seqs.as_mut_ptr(),
            m.seqs.len(),
            m.arrivals.as_mut_ptr(),
            m.arrivals.len(),
            m.routes.as_mut_ptr(),
            m.routes.len(),
            m.copy_ids.as_mut_ptr(),
            m.copy_ids.len(),
            m.lengths.as_mut_ptr(),
            m.lengths.len(),
            m.store.as_mut_ptr(),
            m.store.len(),
            text.as_ptr(),
            text.len(),
            source.as_ptr(),
            source.len(),
            m.sent.as_mut_ptr(),
            m.sent.len(),
            case.cap,
            case.bytes.width,
            case.bytes.length,
            count,
        )
    };
    Ran { took: start.elapsed(), sum, sent: m.sent.clone() }
}

// The same run over the Rust source, and how many copies are held at its end.
fn rust(text: &[u8], source: &[u8], case: &Case, count: u64) -> (Ran, usize) {
    let (width, length) = (case.bytes.width, case.bytes.length as usize);
    let start = Instant::now();
    let mut line = Line::new(text, case.cap, width);
    let mut now_ms = 0.0;
    for left in (1..=count).rev() {
        let at = (left % SOURCES) as usize * length;
        line.arrive(now_ms, &source[at..at + length], left);
        line.release(now_ms);
        now_ms += STEP_MS;
    }
    line.report();
    let took = start.elapsed();
    (Ran { took, sum: line.sum, sent: line.sent }, line.queue.len())
}

// One direction, as a host holds it together.
struct Line {
    engine: ArrivalEngine,
    queue: ImpairQueue,
    accounts: SendAccountant,
    sent: Vec<u8>,
    sum: u64,
}

impl Line {
    fn new(text: &[u8], cap: usize, width: usize) -> Line {
        let config = parse_config(&arguments(text)).unwrap();
        let engine = ArrivalEngine::new(config.c2s, direction_seed(config.seed, SALT));
        Line { engine, queue: ImpairQueue::new(cap), accounts: SendAccountant::default(), sent: vec![1; width], sum: 0 }
    }

    // The sum rotated by five bits, so that the order counts.
    fn add(&mut self, weight: u64) {
        self.sum = self.sum.rotate_left(5) ^ weight;
    }

    fn arrive(&mut self, now_ms: f64, bytes: &[u8], route: u64) {
        let (mut entered, mut overflowed) = (0, 0);
        if let Decision::Enqueue { due_ms, extra_dup } = self.engine.decide(now_ms, bytes.len()) {
            for copy_id in 0..1 + extra_dup as u32 {
                match self.queue.push(due_ms, now_ms, route, copy_id, bytes.to_vec()) {
                    Some(_) => entered += 1,
                    None => {
                        self.engine.stats_inc_overflow();
                        overflowed += 1;
                    }
                }
            }
        }
        self.add(entered + (overflowed << 8));
    }

    // All that is due leaves, is accounted, and its bytes go to the buffer.
    fn release(&mut self, now_ms: f64) {
        for copy in self.queue.pop_due(now_ms) {
            self.accounts.on_send(copy.data.len(), now_ms - copy.arrival_ms);
            self.sent[..copy.data.len()].copy_from_slice(&copy.data);
            let tag = copy.seq.wrapping_add(copy.route).wrapping_add(self.sent[0] as u64 + copy.copy_id as u64);
            self.add(tag.wrapping_add(copy.due_ms.to_bits()));
        }
    }

    fn report(&mut self) {
        let mut s = self.engine.stats.clone();
        self.accounts.merge_into(&mut s);
        let counts = [s.received_pkts, s.received_bytes, s.dropped_random, s.dropped_overflow, s.duplicates, s.reorder_hits, s.sent_pkts, s.sent_bytes];
        let latencies = [s.latency_count, s.latency_sum_ms.to_bits(), s.latency_min_ms.to_bits(), s.latency_max_ms.to_bits()];
        let held = self.queue.len() as u64;
        for weight in counts.into_iter().chain(latencies).chain([held]).chain(s.hist) {
            self.add(weight);
        }
    }
}

// The least and the greatest, and the median.
fn shown(times: &[f64]) -> String {
    let least = times.iter().copied().fold(f64::INFINITY, f64::min);
    let greatest = times.iter().copied().fold(0.0, f64::max);
    format!("{least:.1} to {greatest:.1}, median {:.1}", median(times))
}

fn in_turns(case: &Case) {
    let Bytes { width, length } = case.bytes;
    let memory = &mut Memory::new(case.cap, width);
    let source = &lent::payloads(SOURCES as usize, length as usize);
    let (text, filling) = (case.text(), case.filling());
    let count = filling + case.rounds;
    let (mut ports, mut rusts, mut held) = (Vec::new(), Vec::new(), 0);
    for _ in 0..TURNS {
        let filled = port(memory, &text, source, case, filling);
        let all = port(memory, &text, source, case, count);
        ports.push(per_round(&filled, &all, case.rounds));
        let (filled_by_rust, _) = rust(&text, source, case, filling);
        let (all_by_rust, held_at_end) = rust(&text, source, case, count);
        rusts.push(per_round(&filled_by_rust, &all_by_rust, case.rounds));
        assert_eq!(all.sum, all_by_rust.sum, "the sums differ");
        assert_eq!(all.sent, all_by_rust.sent, "the last bytes differ");
        held = held_at_end;
    }
    let ratio = median(&ports) / median(&rusts);
    let (cap, windows) = (case.cap, case.windows);
    println!("| {cap} | {width} | {length} | {held} | {windows} | {} | {} | {ratio:.2} |", shown(&ports), shown(&rusts));
}

fn main() {
    println!("| Capacity | Slot width | Packet, bytes | Held | Windows | Port, ns for a round | Rust, ns for a round | Port to Rust, medians |");
    println!("|---|---|---|---|---|---|---|---|");
    for case in &CASES {
        in_turns(case);
    }
}
