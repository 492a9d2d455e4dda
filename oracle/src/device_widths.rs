// A fixed script on the slot width of devices: slots that packets fill to their last byte, and creations that are refused.

use crate::device_answers::ROOM;
use crate::instants::{bits, LAST};
use crate::script::line_of;
use crate::sizes::WIDTHS;
use crate::widths::DEFAULT_WIDTH;

// Devices of which all slots are filled: as many of the widest as there is room for, and so many that they take up the whole store.
const FILLED: [(u64, u64); 2] = [(227, 9_216), (256, 8_192)];

// Capacities and widths that are refused, and by what.
const REFUSED: [(u64, u64); 15] = [
    (0, 64), // 24
    (0, 63), // 24 and 30
    (0, 9_217),
    (1_048_577, 64), // 24 and 23
    (1_048_577, 63), // 24, 30 and 23
    (1, 0), // 30
    (1, 63),
    (1, 9_217),
    (1_025, 63), // 30 and 23
    (228, 9_217),
    (1, (1 << 32) + 64),
    (1_025, 64), // 23
    (1_024, 2_049),
    (257, 8_192),
    (228, 9_216),
];

// By the settings of an empty text a copy is due when its packet comes.
pub fn lines() -> Vec<String> {
    let mut lines = vec![line_of(b"")];
    lines.extend(WIDTHS.iter().flat_map(|&width| at_the_edge(width)));
    lines.extend(WIDTHS.iter().flat_map(|&width| in_turns(width)));
    lines.extend(FILLED.iter().flat_map(|&(capacity, width)| filled(capacity, width)));
    lines.extend(REFUSED.iter().flat_map(|&(capacity, width)| refused(capacity, width)));
    lines
}

fn create(capacity: u64, width: u64) -> String {
    format!("create c2s 1 {capacity} {width}")
}

// The fill is the route.
fn arrive(now: f64, length: u64, route: u64) -> String {
    format!("a {} {length} {route} {route}", bits(now))
}

fn release(now: f64) -> String {
    format!("r {}", bits(now))
}

// One slot more than there is room for, and just as many. A packet of one byte more than a slot is refused, by 21 where its instant is not in range either.
fn at_the_edge(width: u64) -> Vec<String> {
    let most = ROOM.most(width);
    vec![
        create(most + 1, width),
        create(most, width),
        arrive(f64::NAN, width + 1, 1),
        arrive(0.0, width + 1, 2),
        arrive(0.0, width, 3),
        arrive(0.0, width - 1, 4),
        arrive(-0.0, width + 1, 5),
        release(0.0),
        release(0.0),
        release(0.0),
        "p".to_string(),
    ]
}

// Three slots are filled, the second one twice; a full device refuses a packet that is too long, and has no room for one that is not.
fn in_turns(width: u64) -> Vec<String> {
    vec![
        create(3, width),
        arrive(3.0, width, 1),
        arrive(1.0, width, 2),
        arrive(2.0, width, 3),
        arrive(0.0, width + 1, 4),
        arrive(0.0, width, 5),
        release(1.0),
        arrive(1.0, width, 6),
        release(3.0),
        release(3.0),
        release(3.0),
        release(3.0),
        "p".to_string(),
    ]
}

// Every slot is filled, then one packet more comes, and all copies leave, in another order than they came.
fn filled(capacity: u64, width: u64) -> Vec<String> {
    let mut lines = vec![create(capacity, width)];
    lines.extend((0..=capacity).map(|i| arrive((i * 101 % capacity) as f64, width, i)));
    lines.push("p".to_string());
    lines.extend((0..=capacity).map(|_| release(LAST)));
    lines.push("p".to_string());
    lines
}

// After a refused creation there is one slot of the default width.
fn refused(capacity: u64, width: u64) -> Vec<String> {
    let usual = DEFAULT_WIDTH as u64;
    vec![
        create(capacity, width),
        arrive(0.0, usual + 1, 1),
        arrive(0.0, usual, 2),
        arrive(0.0, usual, 3),
        release(0.0),
        release(0.0),
    ]
}
