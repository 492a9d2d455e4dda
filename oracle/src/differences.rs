// Document 01's differences from the Rust, put into the arguments before the Rust reads them.
// A value that 01 refuses, and the Rust does not or by another check, is replaced by a mark at which the Rust refuses, so the Rust's own order of checks decides what is refused first.
// Marks are not ASCII, so no option text that comes this far has one.

use crate::config::parse_config;
use std::collections::HashMap;

// Stands for a whole number above 2^53: refusal 8.
pub const ABOVE: &str = "§8";
// Stands for the start of the 129th entry of a list: refusal 19.
pub const TOO_MANY: &str = "§19";
// Stands for a decimal that does not have 01's form: refusal 10.
const NO_DECIMAL: &str = "§10";

const MOST: u64 = 1 << 53;
const MOST_ENTRIES: usize = 128;
const LEFT_OUT: [&str; 4] = ["bind", "upstream", "stats-file", "port-file"];

// An option as it stands in the arguments: in one of them (--key=value, --verbose), or in two.
struct Given<'a> {
    name: &'a str,
    value: Option<&'a str>,
    inline: bool,
}

impl<'a> Given<'a> {
    // The option at the front of the arguments, if one stands there whole.
    fn first(arguments: &'a [String]) -> Option<Self> {
        let argument = arguments.first()?;
        if !argument.starts_with("--") {
            return None;
        }
        if let Some((name, value)) = argument.split_once('=') {
            return Some(Given { name, value: Some(value), inline: true });
        }
        if key_of(argument) == "verbose" {
            return Some(Given { name: argument, value: None, inline: true });
        }
        let value = arguments.get(1)?;
        Some(Given { name: argument, value: Some(value), inline: false })
    }

    fn width(&self) -> usize {
        if self.inline { 1 } else { 2 }
    }

    // The arguments of this option with another value.
    fn with(&self, value: &str) -> Vec<String> {
        if self.inline {
            vec![format!("{}={value}", self.name)]
        } else {
            vec![self.name.to_string(), value.to_string()]
        }
    }
}

fn key_of(name: &str) -> &str {
    name.trim_start_matches("--")
}

// The arguments that the Rust is to read; from the first that is no whole option on they stay as they are, and the Rust refuses there.
pub fn applied(arguments: &[String]) -> Vec<String> {
    let mut entries: HashMap<&str, usize> = HashMap::new();
    let (mut read, mut rest) = (Vec::new(), arguments);
    while let Some(given) = Given::first(rest) {
        let (own, after) = rest.split_at(given.width());
        rest = after;
        let key = key_of(given.name);
        if LEFT_OUT.contains(&key) {
            continue;
        }
        let before = entries.entry(key).or_default();
        match given.value {
            Some(value) => read.extend(given.with(&marked(key, value, *before))),
            None => read.extend_from_slice(own),
        }
        *before += 1;
    }
    read.extend_from_slice(rest);
    read
}

// The value with marks for what 01 does not take; so many values of its key stand before it.
fn marked(key: &str, value: &str, before: usize) -> String {
    let of_direction = key.strip_prefix("c2s-").or(key.strip_prefix("s2c-"));
    match of_direction {
        Some("loss" | "delay-ms" | "jitter-ms" | "reorder" | "reorder-delay-ms" | "duplicate") => decimal(value),
        Some("ge") => value.split(':').map(decimal).collect::<Vec<_>>().join(":"),
        Some("rate-bps" | "rate-burst-bytes" | "mtu" | "nat-change-every-ms") => whole(value),
        Some("blackout" | "kill") => entry(key, value, before),
        None if key == "duration-ms" || key == "queue-cap" => whole(value),
        _ => value.to_string(),
    }
}

fn decimal(value: &str) -> String {
    let unsigned = value.strip_prefix('+').unwrap_or(value);
    let points = unsigned.bytes().filter(|byte| *byte == b'.').count();
    let digits = unsigned.bytes().filter(u8::is_ascii_digit).count();
    let has_form = points <= 1 && (1..=15).contains(&digits) && points + digits == unsigned.len();
    if has_form { value.to_string() } else { NO_DECIMAL.to_string() }
}

fn whole(value: &str) -> String {
    let above = value.parse::<u64>().is_ok_and(|number| number > MOST);
    if above { ABOVE.to_string() } else { value.to_string() }
}

fn bound(value: &str) -> String {
    if whole(value.trim()) == ABOVE { ABOVE.to_string() } else { value.to_string() }
}

// A window or a kill. The 129th is marked only where the Rust, reading it alone, takes it.
fn entry(key: &str, value: &str, before: usize) -> String {
    let value = value.split(':').map(bound).collect::<Vec<_>>().join(":");
    if before != MOST_ENTRIES {
        return value;
    }
    let alone = ["--mode=tcp".to_string(), format!("--{key}={value}")];
    if parse_config(&alone).is_ok() { format!("{TOO_MANY}:0:rst") } else { value }
}
