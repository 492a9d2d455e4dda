// Option texts, drawn at random: most well-formed, some damaged, some long, and some of any bytes.

use crate::long_texts::{lists, long};
use crate::split_mix::SplitMix;
use crate::well_formed::well_formed;

pub fn text(r: &mut SplitMix) -> Vec<u8> {
    match r.below(1000) {
        0 => long(r),
        1..=10 => lists(r),
        11..=50 => any_bytes(r),
        51..=150 => few_bytes(r),
        151..=300 => damaged(r),
        _ => well_formed(r).into_bytes(),
    }
}

// A well-formed text with one to three bytes changed, put in or taken out.
fn damaged(r: &mut SplitMix) -> Vec<u8> {
    let mut text = well_formed(r).into_bytes();
    for _ in 0..1 + r.below(3) {
        let place = r.below(text.len() + 1);
        let byte = r.pick(b"-=:.+ 0019abcdehkmostuvx\t\r\n\x7f\x1f");
        match r.below(16) {
            0 => text.insert(place, 0),
            1 => text.truncate(text.len().saturating_sub(1)),
            2 => text.truncate(place),
            3 => text.insert(place, 0x80 | r.below(128) as u8),
            4..=8 => text.insert(place, byte),
            _ if place == text.len() => text.push(0),
            9..=11 => drop(text.remove(place)),
            _ => text[place] = byte,
        }
    }
    text
}

fn any_bytes(r: &mut SplitMix) -> Vec<u8> {
    let bytes = if r.percent(50) { 128 } else { 256 };
    let mut text: Vec<u8> = (0..r.below(40)).map(|_| r.below(bytes) as u8).collect();
    if r.percent(80) {
        text.push(0);
    }
    text
}

// Bytes and pieces of which options are made, in any order.
fn few_bytes(r: &mut SplitMix) -> Vec<u8> {
    let pieces = [
        "--", "--", "\0--", "\0--", "-", "=", "=", "\0", "0", "1", "9", ":", ".", "+", " ", "c2s-", "s2c-", "loss", "ge", "kill",
        "-kill", "blackout", "mode", "udp", "tcp", "seed", "verbose", "mtu", "rst", "hold", "bind", "c", "s", "m", "e", "l",
    ];
    let mut text = if r.percent(80) { "--".to_string() } else { String::new() };
    for _ in 0..r.below(24) {
        text += r.pick(&pieces);
    }
    if r.percent(90) {
        text.push('\0');
    }
    text.into_bytes()
}
