// Option texts for engines: each feature on or off, and nothing that is refused.

use crate::split_mix::SplitMix;
use crate::values::{burst_loss, probability, some_time, time, window};
use crate::well_formed::option;

// How the value of an option is drawn.
pub type Draw = fn(&mut SplitMix) -> String;

const FEW: [&str; 6] = ["0.01", "0.02", "0.05", "0.1", "0.25", ".000000000000001"];

// Most are small, so that most packets get past each draw.
fn chance(r: &mut SplitMix) -> String {
    match r.below(25) {
        0 => "0".to_string(),
        1 => "1".to_string(),
        2..=6 => probability(r, true),
        _ => r.pick(&FEW).to_string(),
    }
}

fn bursts(r: &mut SplitMix) -> String {
    if r.percent(25) {
        return burst_loss(r, true);
    }
    format!("{}:{}:{}", r.pick(&FEW), r.pick(&["0.1", "0.5", "1"]), r.pick(&["0.3", "0.9", "1", "0"]))
}

// About as many bits a second as the arrivals bring.
fn near_load(r: &mut SplitMix) -> usize {
    200_000 + r.below(1_200_000)
}

// From 1 to 2^53, of all orders of magnitude; some are about what the arrivals bring, so that the credit goes up and down.
fn rate(r: &mut SplitMix) -> String {
    let any = (1 + r.below(1 << 53)) >> r.below(53);
    let load = near_load(r);
    r.pick(&[1, 8, 8_000, 100_000, 12_000_000, 1_000_000_000, 1 << 53, any, any, load, load, load]).max(1).to_string()
}

fn burst_bytes(r: &mut SplitMix) -> String {
    r.pick(&["0", "1", "100", "1500", "1501", "5000", "20000", "9007199254740992"]).to_string()
}

fn mtu(r: &mut SplitMix) -> String {
    let (any, far) = (1 + r.below(2100), 1 + r.below(9300));
    r.pick(&[1, 576, 1500, 2047, 2048, 2049, 9215, 9216, 1 << 53, any, any, any, any, far]).to_string()
}

fn period(r: &mut SplitMix) -> String {
    let any = 1 + r.below(2000);
    r.pick(&[1, 7, 100, 1000, 1 << 53, any, any]).to_string()
}

// Short ones among the first seconds, which overlap where they are many.
fn short_window(r: &mut SplitMix) -> String {
    if r.percent(10) {
        return window(r, true);
    }
    let start = r.below(3000);
    format!("{start}:{}", start + 1 + r.below(20))
}

fn short_kill(r: &mut SplitMix) -> String {
    format!("{}:{}", short_window(r), r.pick(&["rst", "hold"]))
}

// How many entries a list has: seldom as many as are taken.
fn entries(r: &mut SplitMix) -> usize {
    match r.below(20) {
        0 => 128,
        1..=3 => 5 + r.below(30),
        4..=9 => 1 + r.below(4),
        _ => 0,
    }
}

// The options of a direction; half of the scalar ones are there.
fn direction(r: &mut SplitMix, prefix: &str, tcp: bool, delay: Draw) -> Vec<String> {
    let both: [(&str, Draw); 7] = [
        ("loss", chance),
        ("ge", bursts),
        ("delay-ms", delay),
        ("jitter-ms", delay),
        ("rate-bps", rate),
        ("rate-burst-bytes", burst_bytes),
        ("mtu", mtu),
    ];
    let udp: [(&str, Draw); 2] = [("duplicate", chance), ("nat-change-every-ms", period)];
    let scalars = both.iter().chain(udp.iter().filter(|_| !tcp));
    let mut options: Vec<String> = Vec::new();
    for (key, draw) in scalars {
        if r.percent(50) {
            let value = draw(r);
            options.push(option(r, &format!("{prefix}{key}"), &value));
        }
    }
    if !tcp && r.percent(50) {
        let (often, late) = (chance(r), some_time(r));
        options.push(option(r, &format!("{prefix}reorder"), &often));
        options.push(option(r, &format!("{prefix}reorder-delay-ms"), &late));
    }
    options.extend(list(r, &format!("{prefix}blackout"), short_window));
    if tcp {
        options.extend(list(r, &format!("{prefix}kill"), short_kill));
    }
    options
}

fn list(r: &mut SplitMix, key: &str, draw: fn(&mut SplitMix) -> String) -> Vec<String> {
    let count = entries(r);
    (0..count).map(|_| draw(r)).map(|value| format!("--{key}={value}\0")).collect()
}

// A rate and a burst for both directions and nothing else, so that each rounding of the bucket shows in a due.
fn shaped(r: &mut SplitMix) -> Vec<u8> {
    let mut options = String::new();
    for prefix in ["c2s", "s2c"] {
        let (rate, burst) = (near_load(r), r.pick(&[1, 1500, 5000]));
        options += &format!("--{prefix}-rate-bps={rate}\0--{prefix}-rate-burst-bytes={burst}\0");
    }
    options.into_bytes()
}

// A text with options for both directions, and any delays.
pub fn text(r: &mut SplitMix) -> Vec<u8> {
    text_with(r, any_delay)
}

pub fn any_delay(r: &mut SplitMix) -> String {
    time(r, true)
}

// A text with options for both directions, whose delays and jitters are drawn so.
pub fn text_with(r: &mut SplitMix, delay: Draw) -> Vec<u8> {
    if r.percent(10) {
        return shaped(r);
    }
    let tcp = r.percent(35);
    let mut options = direction(r, "c2s-", tcp, delay);
    options.extend(direction(r, "s2c-", tcp, delay));
    if tcp {
        options.insert(r.below(options.len() + 1), option(r, "mode", "tcp"));
    }
    options.concat().into_bytes()
}
