// Prints what the accounts give, as the program crates/vectors does in crates/vectors/src/oracle_accounts.rt.
mod config;
mod impair;
mod print;
mod rng;
mod stats;
mod widths;

use impair::{LatencyStats, SendAccountant};
use print::{count, float, hex};
use rng::Rng;
use stats::{DirectionStats, BUCKET_BOUNDS_MS};
use widths::LONGEST;

const EDGES: [f64; 8] = [0.0, -0.0, 0.1, 1.0, -1.0, f64::INFINITY, f64::NEG_INFINITY, f64::NAN];

// Just below, at and just above every bound, and the ends of the range.
fn latencies() -> Vec<f64> {
    let around = BUCKET_BOUNDS_MS.iter().flat_map(|b| [b.next_down(), *b, b.next_up()]);
    let zeros = [0.0, -0.0, 5e-324, -5e-324];
    let inner = [0.5, 3.75, -1.0, -3.0, 4999.0];
    let ends = [f64::MAX, f64::MIN, f64::INFINITY, f64::NEG_INFINITY, f64::NAN];
    around.chain(zeros).chain(inner).chain(ends).collect()
}

fn latency(n: u64, sum: f64, min: f64, max: f64, hist: &[u64; 12]) -> String {
    let hist: String = hist.iter().map(|n| count(*n)).collect();
    format!("{}{}{}{}{hist}", count(n), float(sum), float(min), float(max))
}

fn accountant(a: &SendAccountant) -> String {
    let l = &a.latency;
    let counts: String =
        [a.sent_pkts, a.sent_bytes, a.dropped_overflow, a.tcp_rst_kills, a.nat_rebinds].map(count).concat();
    counts + &latency(l.count, l.sum_ms, l.min_ms, l.max_ms, &l.hist)
}

fn statistics(s: &DirectionStats) -> String {
    let counts: String = [
        s.received_pkts,
        s.received_bytes,
        s.sent_pkts,
        s.sent_bytes,
        s.dropped_random,
        s.dropped_ge,
        s.dropped_mtu,
        s.dropped_blackout,
        s.dropped_overflow,
        s.duplicates,
        s.reorder_hits,
        s.rate_deferred,
        s.nat_rebinds,
        s.tcp_rst_kills,
    ]
    .map(count)
    .concat();
    counts + &latency(s.latency_count, s.latency_sum_ms, s.latency_min_ms, s.latency_max_ms, &s.hist)
}

fn send(a: &mut SendAccountant, len: usize, latency_ms: f64) {
    a.on_send(len, latency_ms);
    println!("on_send{}{}{}", count(len as u64), float(latency_ms), accountant(a));
}

fn deliver(s: &mut DirectionStats, latency_ms: f64) {
    s.record_delivered(latency_ms);
    println!("record_delivered{}{}", float(latency_ms), statistics(s));
}

fn counted(a: &mut SendAccountant, s: &mut DirectionStats, len: usize, latency_ms: f64) {
    send(a, len, latency_ms);
    deliver(s, latency_ms);
}

fn states(i: usize, latency_ms: f64) {
    for count in [0, 5] {
        send(&mut some_sends(count, i), 7, latency_ms);
    }
    for count in [0, 3] {
        deliver(&mut some_stats(count, i), latency_ms);
    }
}

fn merges(i: usize, j: usize) {
    for (m, n) in [(0, 0), (0, 5), (3, 0), (3, 5)] {
        merge(some_stats(m, i), some_sends(n, j));
    }
}

// Of two zeros as maximum Rust may take either, so both get the target's.
fn merge(mut s: DirectionStats, mut a: SendAccountant) {
    if s.latency_max_ms == 0.0 && a.latency.max_ms == 0.0 {
        a.latency.max_ms = s.latency_max_ms;
    }
    a.merge_into(&mut s);
    println!("merge_into{}", statistics(&s));
}

// The floats at i: the sum, the minimum and the maximum are all different.
fn floats(i: usize) -> [f64; 3] {
    [EDGES[(i + 1) % 8], EDGES[i], EDGES[(i + 3) % 8]]
}

fn some_sends(count: u64, i: usize) -> SendAccountant {
    let [sum_ms, min_ms, max_ms] = floats(i);
    let hist = [31, 32, 33, 34, 35, 36, 37, 38, 39, 40, 41, 42];
    SendAccountant {
        sent_pkts: 7,
        sent_bytes: 11,
        dropped_overflow: 13,
        tcp_rst_kills: 17,
        nat_rebinds: 19,
        latency: LatencyStats { count, sum_ms, min_ms, max_ms, hist },
    }
}

fn some_stats(count: u64, i: usize) -> DirectionStats {
    let [latency_sum_ms, latency_min_ms, latency_max_ms] = floats(i);
    DirectionStats {
        received_pkts: 100,
        received_bytes: 201,
        sent_pkts: 302,
        sent_bytes: 403,
        dropped_random: 504,
        dropped_ge: 605,
        dropped_mtu: 706,
        dropped_blackout: 807,
        dropped_overflow: 908,
        duplicates: 1009,
        reorder_hits: 1110,
        rate_deferred: 1211,
        nat_rebinds: 1312,
        tcp_rst_kills: 1413,
        latency_count: count,
        latency_sum_ms,
        latency_min_ms,
        latency_max_ms,
        hist: [51, 52, 53, 54, 55, 56, 57, 58, 59, 60, 61, 62],
    }
}

// The largest counters that refusal 25 lets through.
const TOP: u64 = (1 << 60) - 1;

fn full_sends() -> SendAccountant {
    SendAccountant {
        sent_pkts: TOP,
        sent_bytes: TOP,
        dropped_overflow: TOP,
        tcp_rst_kills: TOP,
        nat_rebinds: TOP,
        latency: LatencyStats { count: TOP, sum_ms: 8.0, min_ms: 1.0, max_ms: 4.0, hist: [TOP; 12] },
    }
}

fn full_stats() -> DirectionStats {
    DirectionStats {
        received_pkts: TOP,
        received_bytes: TOP,
        sent_pkts: TOP,
        sent_bytes: TOP,
        dropped_random: TOP,
        dropped_ge: TOP,
        dropped_mtu: TOP,
        dropped_blackout: TOP,
        dropped_overflow: TOP,
        duplicates: TOP,
        reorder_hits: TOP,
        rate_deferred: TOP,
        nat_rebinds: TOP,
        tcp_rst_kills: TOP,
        latency_count: TOP,
        latency_sum_ms: 16.0,
        latency_min_ms: 2.0,
        latency_max_ms: 3.0,
        hist: [TOP; 12],
    }
}

// A hundred thousand latencies of either sign up to 16,384 ms, with the bits of every sum, minimum and maximum folded into one number.
fn long_run(seed: u64) {
    let mut rng = Rng::new(seed);
    let (mut a, mut s, mut fold) = (SendAccountant::default(), DirectionStats::default(), 0u64);
    for _ in 0..100_000 {
        let scale = rng.next_u64() % 16384;
        let latency_ms = (rng.next_f64() - 0.1) * scale as f64;
        a.on_send((scale % 2048) as usize, latency_ms);
        s.record_delivered(latency_ms * 0.5);
        for x in [a.latency.sum_ms, a.latency.min_ms, a.latency.max_ms, s.latency_sum_ms, s.latency_min_ms, s.latency_max_ms] {
            fold = (fold ^ x.to_bits()).wrapping_mul(0x100_0000_01B3);
        }
    }
    a.merge_into(&mut s);
    println!("accounts_run{}{}{}", hex(seed), hex(fold), statistics(&s));
}

// Packets of more than 2,048 bytes.
fn wide_packets() {
    for len in [2_049, LONGEST - 1, LONGEST] {
        send(&mut full_sends(), len, 0.5);
    }
}

fn main() {
    let latencies = latencies();
    let (mut a, mut s) = (SendAccountant::default(), some_stats(0, 0));
    let (mut b, mut t) = (some_sends(0, 0), DirectionStats::default());
    for (k, x) in latencies.iter().enumerate() {
        counted(&mut SendAccountant::default(), &mut DirectionStats::default(), 100, *x);
        counted(&mut a, &mut s, k, *x);
        counted(&mut b, &mut t, 2_048 - k, latencies[46 - k]);
    }
    for i in 0..8 {
        for j in 0..8 {
            states(i, EDGES[j]);
            merges(i, j);
        }
    }
    send(&mut full_sends(), 2_048, 0.5);
    deliver(&mut full_stats(), 0.5);
    merge(full_stats(), full_sends());
    for s in [DirectionStats::default(), some_stats(0, 0), full_stats()] {
        println!("total_dropped{}", count(s.total_dropped()));
    }
    for seed in 1..=8 {
        long_run(seed);
    }
    wide_packets();
}
