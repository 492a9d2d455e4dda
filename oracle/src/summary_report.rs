// A report as a person must see it, with the numbers of the Rust's own report where that has them.

use crate::instants::float_of;
use crate::stats::{DirectionStats, StatsDoc, BUCKET_BOUNDS_MS};

const LONGEST_BAR: u64 = 40;

struct Report {
    stats: DirectionStats,
    held: u64,
    torn: u64,
}

// What stands behind the word `report`, or none where that is no report.
pub fn report(words: &str) -> Option<String> {
    let report = read(words)?;
    Some(format!("\n{}{}{}", counts(&report), latencies(&report.stats), verdict(&report)))
}

fn count_of(word: &str) -> Option<u64> {
    word.parse().ok().filter(|&n: &u64| n < 1 << 60)
}

fn time_of(word: &str) -> Option<f64> {
    if word == "nan" { Some(f64::NAN) } else { float_of(word) }
}

fn read(words: &str) -> Option<Report> {
    let words: Vec<&str> = words.split(' ').collect();
    if words.len() != 34 || words[30] != "held" || words[32] != "torn" {
        return None;
    }
    let c: Vec<u64> = words[..27].iter().map(|word| count_of(word)).collect::<Option<_>>()?;
    let stats = DirectionStats {
        received_pkts: c[0],
        received_bytes: c[1],
        sent_pkts: c[2],
        sent_bytes: c[3],
        dropped_random: c[4],
        dropped_ge: c[5],
        dropped_mtu: c[6],
        dropped_blackout: c[7],
        dropped_overflow: c[8],
        duplicates: c[9],
        reorder_hits: c[10],
        rate_deferred: c[11],
        nat_rebinds: c[12],
        tcp_rst_kills: c[13],
        latency_count: c[14],
        hist: c[15..27].try_into().ok()?,
        latency_sum_ms: time_of(words[27])?,
        latency_min_ms: time_of(words[28])?,
        latency_max_ms: time_of(words[29])?,
    };
    Some(Report { stats, held: count_of(words[31])?, torn: count_of(words[33])? })
}

fn counts(r: &Report) -> String {
    let s = &r.stats;
    let heading = format!("{:24}{:>12}{:>12}\n", "", "packets", "bytes");
    let moved = [("received", s.received_pkts, s.received_bytes), ("sent", s.sent_pkts, s.sent_bytes)];
    let moved: String = moved.map(|(name, packets, bytes)| format!("{name:24}{packets:12}{bytes:12}\n")).concat();
    let ends = [
        ("dropped at random", s.dropped_random),
        ("dropped by burst loss", s.dropped_ge),
        ("dropped over the MTU", s.dropped_mtu),
        ("dropped in a blackout", s.dropped_blackout),
        ("overflowed", s.dropped_overflow),
        ("reset", s.tcp_rst_kills),
        ("torn down", r.torn),
        ("still held", r.held),
    ];
    let others = [
        ("duplicated", s.duplicates),
        ("reordered", s.reorder_hits),
        ("deferred by the rate", s.rate_deferred),
        ("changes of address", s.nat_rebinds),
        ("latencies", s.latency_count),
    ];
    let row = |(name, n): (&str, u64)| format!("{name:24}{n:12}\n");
    format!("{heading}{moved}\n{}\n{}", ends.map(row).concat(), others.map(row).concat())
}

// A number of the Rust's own report, as its JSON has it.
fn told(json: &str, name: &str) -> String {
    let behind = json.split(&format!("\"{name}\": ")).nth(1).expect("a number of the report");
    worded(behind.split([',', '}']).next().expect("a number of the report"))
}

fn worded(number: &str) -> String {
    match number {
        "NaN" => "not a number".to_string(),
        _ => number.replace("inf", "infinite"),
    }
}

fn latencies(s: &DirectionStats) -> String {
    if s.latency_count == 0 {
        return String::new();
    }
    let json = json_of(s);
    let json = json.split("\"latency_ms\"").nth(1).expect("latencies in the report");
    let sum = worded(&format!("{:.3}", s.latency_sum_ms));
    let times = [("least", told(json, "min")), ("mean", told(json, "mean")), ("greatest", told(json, "max")), ("sum", sum)];
    let times = times.map(|(name, ms)| format!("  {:22}{ms:>16}\n", format!("{name}, in ms")));
    format!("{}{}", times.concat(), buckets(&s.hist))
}

fn json_of(s: &DirectionStats) -> String {
    StatsDoc {
        mode: String::new(),
        seed: 0,
        started_unix_ms: 0,
        ended_unix_ms: 0,
        duration_ms: 0,
        c2s: s.clone(),
        s2c: DirectionStats::default(),
    }
    .to_json()
}

fn buckets(hist: &[u64; 12]) -> String {
    let scale = hist.iter().max().expect("buckets").div_ceil(LONGEST_BAR);
    let heading = format!("\n{:24}{:>12}  # stands for up to {scale} packets\n", "latency in ms", "packets");
    let row = |(i, &n): (usize, &u64)| {
        let bar = if n > 0 { format!("  {}", "#".repeat(n.div_ceil(scale) as usize)) } else { String::new() };
        format!("  {:22}{n:12}{bar}\n", range(i))
    };
    heading + &hist.iter().enumerate().map(row).collect::<String>()
}

fn range(i: usize) -> String {
    let bounds = BUCKET_BOUNDS_MS;
    match i {
        0 => format!("under {}", bounds[0]),
        11 => format!("{} and more", bounds[10]),
        _ => format!("{} to {}", bounds[i - 1], bounds[i]),
    }
}

// Document 01's count: what came, and the duplicates, is what was dropped, reset, overflowed, torn, released and is held.
fn verdict(r: &Report) -> String {
    let s = &r.stats;
    let dropped = s.total_dropped() - s.dropped_overflow;
    let came = s.received_pkts as i128 + s.duplicates as i128;
    let went = [s.sent_pkts, dropped, s.dropped_overflow, s.tcp_rst_kills, r.torn, r.held];
    let all: i128 = went.iter().map(|&n| n as i128).sum();
    let [sent, dropped, overflowed, reset, torn, held] = went;
    let came_words = format!("{} received and {} duplicated", s.received_pkts, s.duplicates);
    let went_words =
        format!("{sent} sent, {dropped} dropped, {overflowed} overflowed, {reset} reset, {torn} torn down and {held} held");
    if came == all {
        format!("\nThe count comes out: {came_words} are {went_words}.\n")
    } else {
        format!("\nThe count does not come out: {came_words} make {came}, but {went_words} make {all}.\n")
    }
}
