// The answers of a machine as the lines that the port prints.

use crate::copies::released;
use crate::machine::Answer;
use crate::print::{count, float};
use crate::stats::DirectionStats;

pub fn said(answer: &Answer) -> String {
    match answer {
        Answer::Refused(number) => format!("refused {number}"),
        Answer::Drop(reason) => format!("drop {reason}"),
        Answer::Reset { torn } => format!("reset {torn}"),
        Answer::Enqueue { due_ms, extra_dup, entered, overflowed } => {
            format!("enqueue{}{}{}{}", float(*due_ms), count(*extra_dup as u64), count(*entered), count(*overflowed))
        }
        Answer::Released(copy) => released(copy),
        Answer::NoneDue => "none".to_string(),
        Answer::Rebind(now) => format!("rebind {}", *now as u8),
        Answer::Torn(copies) => format!("torn {copies}"),
        Answer::Report { stats, held, torn } => format!("report{} held {held} torn {torn}", counted(stats)),
    }
}

fn counted(s: &DirectionStats) -> String {
    let counts = [
        s.received_pkts,
        s.received_bytes,
        s.sent_pkts,
        s.sent_bytes,
        s.dropped_random,
        s.dropped_ge,
        s.dropped_mtu,
        s.dropped_blackout,
        s.dropped_overflow,
        s.duplicates,
        s.reorder_hits,
        s.rate_deferred,
        s.nat_rebinds,
        s.tcp_rst_kills,
        s.latency_count,
    ];
    let latencies = [s.latency_sum_ms, s.latency_min_ms, s.latency_max_ms];
    [counts.map(count).concat(), s.hist.map(count).concat(), latencies.map(float).concat()].concat()
}
