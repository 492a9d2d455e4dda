// The number for each of the sentences with which the Rust refuses: document 02's for the three on options under tcp, and document 01's for all others.

use crate::differences::{ABOVE, TOO_MANY};

// Ends of what stands before a quoted value.
const BEFORE_A_VALUE: [(&str, u32); 9] = [
    ("unexpected positional argument ", 4),
    ("--mode must be udp|tcp, got ", 6),
    (": not an integer: ", 7),
    ("bad start ", 7),
    ("bad end ", 7),
    (": not a number: ", 10),
    ("-ge must be P:R:H (e.g. 0.02:0.5:0.9), got ", 12),
    ("-kill must be START_MS:END_MS:rst|hold, got ", 17),
    ("kill style must be rst|hold, got ", 18),
];

// Parts of the sentences that have no text of the option writer in them.
const WITHOUT_A_VALUE: [(&str, u32); 9] = [
    (": probability must be within [0,1], got ", 11),
    ("-ge: p and r must be > 0 (else no transitions)", 13),
    ("-reorder > 0 requires ", 14),
    ("window must be START_MS:END_MS", 15),
    ("window end (", 16),
    ("-kill is TCP-only (", 20),
    ("-nat-change-every-ms is UDP-only (", 31),
    ("-reorder is UDP-only: ", 32),
    ("-duplicate is UDP-only: ", 33),
];

// A key stands unquoted in the sentence of 5 alone, and no other sentence ends as that one does; in the others all before the first quote is the Rust's own.
pub fn number(sentence: &str) -> u32 {
    if sentence.starts_with("--") && sentence.ends_with(" needs a value") {
        return 5;
    }
    let found = match sentence.split_once('"') {
        Some((before, value)) => of_value(before, value),
        None => of_plain(sentence),
    };
    found.unwrap_or_else(|| panic!("no number for {sentence}"))
}

// Of a sentence that quotes a value: a mark in the place of a whole number has its own number.
fn of_value(before: &str, value: &str) -> Option<u32> {
    let (_, number) = BEFORE_A_VALUE.iter().find(|(end, _)| before.ends_with(end))?;
    let value = value.strip_suffix('"')?;
    match (*number, value) {
        (7, ABOVE) => Some(8),
        (7, TOO_MANY) => Some(19),
        (number, _) => Some(number),
    }
}

fn of_plain(sentence: &str) -> Option<u32> {
    if sentence.ends_with(" must be > 0") {
        return Some(9);
    }
    WITHOUT_A_VALUE.iter().find(|(part, _)| sentence.contains(part)).map(|(_, number)| *number)
}
