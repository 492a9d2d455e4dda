// Well-formed option texts: options of all kinds, in any order and in all their forms.

use crate::split_mix::SplitMix;
use crate::values::{burst_loss, kill, probability, seed, some_time, time, whole, whole_or_zero, window};

const KEYS_OF_BOTH: [&str; 8] = ["loss", "ge", "delay-ms", "jitter-ms", "rate-bps", "rate-burst-bytes", "mtu", "blackout"];
const KEYS_OF_UDP: [&str; 4] = ["reorder", "reorder-delay-ms", "duplicate", "nat-change-every-ms"];
const KEYS_OF_TCP: [&str; 1] = ["kill"];

// Keys that nothing reads, the four that are left out among them.
const OTHER_KEYS: [&str; 40] = [
    "bind", "upstream", "stats-file", "port-file", "bind", "upstream", "stats-file", "port-file", "c2s-los", "c2s-losss",
    "c2sloss", "c2s_loss", "C2s-loss", "c2s-", "c2s", "s2c-", "s2s-loss", "c2s-c2s-loss", "-c2s-loss", "x-blackout", "x-kill",
    "-blackout", "-kill", "blackout", "kill", "c2s-blackouts", "c2s-c2s-kill", "", "-", " mode", "mode ", "Mode", "modes",
    "-mode", "seeds", "duration", "queue-cap-", "c2s-seed", "loss", "verbos",
];

const OTHER_VALUES: [&str; 18] = [
    "", "0", "1", "5", "x", "nan", "0.5", "127.0.0.1:9000", "[::1]:80", "x/y.json", "1:2", "1:2:rst", "--", "--mode",
    "--mode=tcp", "--seed=7", "--verbose", "=",
];

const VERBOSE: [&str; 14] = [
    "--verbose", "--verbose", "----verbose", "---verbose=1", "--verbose=1", "--verbose=true", "--verbose=yes", "--verbose=on",
    "--verbose=0", "--verbose=", "--verbose=TRUE", "--verbose=on ", "----verbose=yes", "--verbose==1",
];

const MODES: [&str; 12] = ["udp", "tcp", "udp", "tcp", "", "UDP", "Tcp", "udp ", " tcp", "udptcp", "ud", "quic"];

// Arguments that are no options, or lack a value.
const ODD_ARGUMENTS: [&str; 10] = ["x", "-x", "-", "", "--", "mode=udp", "--mode", "--seed", "--c2s-kill", "--bind"];

// How an option's value is drawn: with care all are taken, else some in a hundred are of any kind.
#[derive(Clone, Copy)]
pub struct Care {
    pub careless: usize,
}

impl Care {
    fn draw(r: &mut SplitMix) -> Self {
        Care { careless: if r.percent(30) { 0 } else { 30 } }
    }

    fn taken(self, r: &mut SplitMix) -> bool {
        !r.percent(self.careless)
    }
}

// One option, in one argument or in two.
pub fn option(r: &mut SplitMix, key: &str, value: &str) -> String {
    let dashes = r.pick(&["--", "--", "--", "--", "--", "--", "--", "--", "--", "----", "------"]);
    let between = r.pick(&["=", "\0"]);
    format!("{dashes}{key}{between}{value}\0")
}

fn value_of(r: &mut SplitMix, key: &str, care: bool) -> String {
    match key {
        "loss" | "reorder" | "duplicate" => probability(r, care),
        "delay-ms" | "jitter-ms" | "reorder-delay-ms" => time(r, care),
        "ge" => burst_loss(r, care),
        "blackout" => window(r, care),
        "kill" => kill(r, care),
        "seed" => seed(r, care),
        "rate-burst-bytes" | "duration-ms" => whole_or_zero(r, care),
        _ => whole(r, care),
    }
}

// An option under one of its keys; now and then a value that does not count stands before the last scalar.
fn drawn(r: &mut SplitMix, prefix: &str, key: &str, care: Care) -> String {
    let name = format!("{prefix}{key}");
    let taken = care.taken(r);
    let value = value_of(r, key, taken);
    let last = option(r, &name, &value);
    if key == "blackout" || key == "kill" || !r.percent(6) {
        return last;
    }
    let earlier = value_of(r, key, false);
    option(r, &name, &earlier) + &last
}

// An option of a direction; with care one of the mode, and each with what it needs.
fn of_direction(r: &mut SplitMix, tcp: bool, care: Care) -> String {
    let prefix = r.pick(&["c2s-", "s2c-"]);
    let of_tcp = if care.taken(r) { tcp } else { !tcp };
    let of_mode = if of_tcp { &KEYS_OF_TCP[..] } else { &KEYS_OF_UDP[..] };
    let key = if r.percent(30) { r.pick(of_mode) } else { r.pick(&KEYS_OF_BOTH) };
    let own = drawn(r, prefix, key, care);
    if key == "reorder" && care.taken(r) {
        let needed = some_time(r);
        return own + &option(r, &format!("{prefix}reorder-delay-ms"), &needed);
    }
    if key == "rate-bps" && r.percent(50) {
        return own + &drawn(r, prefix, "rate-burst-bytes", care);
    }
    own
}

pub fn any_option(r: &mut SplitMix, tcp: bool, care: Care) -> String {
    match r.below(20) {
        0 | 1 => drawn(r, "", "seed", care),
        2 => drawn(r, "", "duration-ms", care),
        3 => drawn(r, "", "queue-cap", care),
        4 => r.pick(&VERBOSE).to_string() + "\0",
        5 | 6 => {
            let (key, value) = (r.pick(&OTHER_KEYS), r.pick(&OTHER_VALUES));
            option(r, key, value)
        }
        _ => of_direction(r, tcp, care),
    }
}

// One to seven options and the mode, in any order.
pub fn well_formed(r: &mut SplitMix) -> String {
    let care = Care::draw(r);
    let tcp = r.percent(40);
    let mut options: Vec<String> = (0..1 + r.below(7)).map(|_| any_option(r, tcp, care)).collect();
    if tcp || r.percent(30) {
        let own = if tcp { "tcp" } else { "udp" };
        let mode = if care.taken(r) { own } else { r.pick(&MODES) };
        options.insert(r.below(options.len() + 1), option(r, "mode", mode));
    }
    if !care.taken(r) && r.percent(40) {
        let odd = r.pick(&ODD_ARGUMENTS).to_string();
        options.insert(r.below(options.len() + 1), odd + "\0");
    }
    options.concat()
}
