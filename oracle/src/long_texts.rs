// Option texts with lists of about 128 entries, and texts of about 16,384 bytes.

use crate::split_mix::SplitMix;
use crate::values::{kill, window};
use crate::well_formed::{any_option, option, well_formed, Care};
use std::collections::VecDeque;

// One list or more, in a tenth of the texts with a second option that is often not taken.
pub fn lists(r: &mut SplitMix) -> Vec<u8> {
    let mut keys = vec!["c2s-blackout", "s2c-blackout", "c2s-kill", "s2c-kill", "x-blackout"];
    let count = r.pick(&[1, 1, 1, 1, 1, 1, 1, 1, 1, 1, 2, 2, 2, 2, 5]);
    while keys.len() > count {
        keys.remove(r.below(keys.len()));
    }
    let all = keys.iter().map(|key| list(r, key)).collect();
    let mut options = woven(r, all);
    if r.percent(90) {
        let mode = if keys.iter().any(|key| key.ends_with("-kill")) { "tcp" } else { "udp" };
        options.insert(r.below(options.len() + 1), option(r, "mode", mode));
    }
    if r.percent(10) {
        let tcp = r.percent(50);
        let second = any_option(r, tcp, Care { careless: 80 });
        options.insert(r.below(options.len() + 1), second);
    }
    options.concat().into_bytes()
}

// One list; some have an entry that is not taken at the 129th place, and some at any.
fn list(r: &mut SplitMix, key: &str) -> VecDeque<String> {
    let count = r.pick(&[127, 128, 128, 128, 129, 129, 130]);
    let spoilt = match r.below(10) {
        0..=2 => 128,
        3 => r.below(count),
        _ => count,
    };
    let entry = |place: usize| {
        let value = match key.ends_with("-kill") {
            true if place == spoilt => kill(r, false),
            false if place == spoilt => window(r, false),
            true => format!("{place}:{}:{}", place + 1, r.pick(&["rst", "hold"])),
            false => format!("{place}:{}", place + 1),
        };
        format!("--{key}{}{value}\0", r.pick(&["=", "\0"]))
    };
    (0..count).map(entry).collect()
}

// The entries of all lists, those of each in its order.
fn woven(r: &mut SplitMix, mut lists: Vec<VecDeque<String>>) -> Vec<String> {
    let mut entries = Vec::new();
    while !lists.is_empty() {
        let drawn = r.below(lists.len());
        match lists[drawn].pop_front() {
            Some(entry) => entries.push(entry),
            None => drop(lists.remove(drawn)),
        }
    }
    entries
}

// A text of about the greatest length or more, most of it one argument.
pub fn long(r: &mut SplitMix) -> Vec<u8> {
    let length = match r.below(7) {
        0 => 16_386 + r.below(3000),
        n => [16_383, 16_384, 16_385][n % 3],
    };
    let (front, filler, back) = r.pick(&[
        ("--other=", "x", "\0"),
        ("--seed=", "0", "18446744073709551615\0"),
        ("--c2s-mtu\0", "0", "9007199254740993\0"),
        ("", "-", "mode=tcp\0"),
        ("--c2s-blackout=1:", " ", "2\0"),
        ("--s2c-delay-ms=", "0", "\0"),
        ("--x=", "\0--x=", "\0"),
        ("--s2c-los", "s", "\x001\0"),
    ]);
    let options = well_formed(r);
    let room = length - options.len() - front.len() - back.len();
    let fill = filler.repeat(room / filler.len()) + &"=".repeat(room % filler.len());
    let filled = format!("{front}{fill}{back}");
    let mut text = if r.percent(50) { options + &filled } else { filled + &options }.into_bytes();
    match r.below(10) {
        0 => *text.last_mut().unwrap() = b'x',
        1 => text[r.below(length)] = 0x80,
        _ => {}
    }
    text
}
