// The settings of a `taken` line as arguments, each on a line of its own.

use crate::instants::float_of;
use crate::script::line_of;

// A setting's name in the answer, and the key of its option.
const KEYS: [(&str, &str); 16] = [
    ("mode", "mode"),
    ("seed", "seed"),
    ("duration", "duration-ms"),
    ("verbose", "verbose"),
    ("cap", "queue-cap"),
    ("loss", "loss"),
    ("ge", "ge"),
    ("delay", "delay-ms"),
    ("jitter", "jitter-ms"),
    ("reorder", "reorder"),
    ("rdelay", "reorder-delay-ms"),
    ("dup", "duplicate"),
    ("rate", "rate-bps"),
    ("burst", "rate-burst-bytes"),
    ("mtu", "mtu"),
    ("nat", "nat-change-every-ms"),
];

const FLOATS: [&str; 7] = ["loss", "ge", "delay", "jitter", "reorder", "rdelay", "dup"];

pub fn arguments(settings: &str) -> String {
    let mut parts = settings.split(['[', ']']);
    let shared = parts.next().unwrap_or("");
    let c2s = parts.next().unwrap_or("");
    let s2c = parts.nth(1).unwrap_or("");
    let both = shared.split_whitespace().map(|word| argument("", word));
    let directions = [("c2s-", c2s), ("s2c-", s2c)];
    let each = directions.iter().flat_map(|(prefix, words)| {
        words.split_whitespace().filter(|word| is_set(word)).map(move |word| argument(prefix, word))
    });
    both.chain(each).map(|argument| format!("  --{argument}\n")).collect()
}

fn is_set(word: &str) -> bool {
    !["=none", "=0", "=0000000000000000"].iter().any(|unset| word.ends_with(unset))
}

fn argument(prefix: &str, word: &str) -> String {
    let Some((name, value)) = word.split_once('=') else {
        let key = if word.starts_with('b') { "blackout" } else { "kill" };
        return format!("{prefix}{key}={}", &word[1..]);
    };
    let key = KEYS.iter().find(|(known, _)| *known == name).map_or("", |(_, key)| key);
    let value = if FLOATS.contains(&name) { value.split(':').map(decimal).collect::<Vec<_>>().join(":") } else { value.to_string() };
    format!("{prefix}{key}={value}")
}

// The shortest decimal that stands for the float: of a float that at most 15 digits were read as, these digits. A zero before the point goes where the digits
// would be 16.
fn decimal(bits: &str) -> String {
    let shortest = float_of(bits).expect("bits of a float").to_string();
    let digits = shortest.bytes().filter(u8::is_ascii_digit).count();
    if digits > 15 { shortest.trim_start_matches('0').to_string() } else { shortest }
}

// The script line of each scenario that is shown.
pub fn option_lines(shown: &str) -> String {
    let texts = shown.split("taken:\n").skip(1).map(|scenario| {
        let arguments = scenario.lines().filter_map(|line| line.strip_prefix("  "));
        arguments.map(|argument| format!("{argument}\0")).collect::<String>()
    });
    texts.map(|text| line_of(text.as_bytes()) + "\n").collect()
}
