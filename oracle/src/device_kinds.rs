// The kinds of the answers to a script of calls on devices.

use crate::streams;

// The first numbers of a report, of which each report adds what it has more than the one before it.
const COUNTERS: [&str; 27] = [
    "received_pkts", "received_bytes", "sent_pkts", "sent_bytes", "dropped_random", "dropped_ge", "dropped_mtu", "dropped_blackout",
    "dropped_overflow", "duplicates", "reorder_hits", "rate_deferred", "nat_rebinds", "tcp_rst_kills", "latency_count", "latency <1",
    "latency 1-2", "latency 2-5", "latency 5-10", "latency 10-20", "latency 20-50", "latency 50-100", "latency 100-200",
    "latency 200-500", "latency 500-1000", "latency 1000-5000", "latency >=5000",
];

// The kinds of the answers on standard input: those of each, whether a released copy has the due of the one released before it, and what the reports count.
pub fn kinds() -> impl Iterator<Item = (String, u64)> {
    let mut before = [0; COUNTERS.len()];
    let mut last_due = String::new();
    streams::lines().flat_map(move |line| {
        let answer = String::from_utf8_lossy(&line).into_owned();
        let words: Vec<&str> = answer.split(' ').collect();
        let mut found = vec![(kind(&words), 1)];
        let mut due = String::new();
        match words[..] {
            ["created"] | ["refused", "23" | "24" | "30"] => before = [0; COUNTERS.len()],
            ["released", own, ..] => {
                due = own.to_string();
                if due == last_due {
                    found.push(("released with the due of the one before".to_string(), 1));
                }
            }
            ["report", ..] => {
                let counts: [u64; COUNTERS.len()] = std::array::from_fn(|i| words[1 + i].parse().unwrap());
                found.extend((0..COUNTERS.len()).map(|i| (format!("reported {}", COUNTERS[i]), counts[i] - before[i])));
                before = counts;
            }
            _ => {}
        }
        last_due = due;
        found
    })
}

// All of an answer, but for instants, dues, settings and counts; refusals sort by their number.
fn kind(words: &[&str]) -> String {
    let some = |count: &str| if count == "0" { "none" } else { "some" }.to_string();
    match *words {
        ["taken", ..] => "taken".to_string(),
        ["refused", number] => format!("refused {number:>2}"),
        ["enqueue", _, dup, entered, overflowed] => format!("enqueue {dup}, {entered} entered, {overflowed} overflowed"),
        ["reset", torn] => format!("reset, {} torn", some(torn)),
        ["torn", torn] => format!("torn, {}", some(torn)),
        ["released", _, _, _, _, id, ..] => format!("released copy {id}"),
        ["report", ..] => format!("report, {} held, {} torn", some(words[words.len() - 3]), some(words[words.len() - 1])),
        _ => words.join(" "),
    }
}
