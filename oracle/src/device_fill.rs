// A scenario in which a device of some hundred copies fills up, overflows, releases in the order of their dues, fills up again and is torn down.

use crate::instants::{bits, LAST};
use crate::script::line_of;
use crate::split_mix::SplitMix;

// Capacities, each with a slot width for which there is room.
const SIZES: [(usize, usize); 14] = [
    (255, 2048), (256, 64), (257, 1500), (511, 2049), (512, 65), (513, 2048), (1000, 64), (1023, 200), (1024, 2047), (1024, 2048),
    (227, 9216), (227, 9215), (232, 9000), (1023, 2049),
];

// The copies wait longer than it takes until all have come, and some of them tie.
fn text(r: &mut SplitMix) -> Vec<u8> {
    let jitter = r.pick(&["0", "20", "3000.5", "6000"]);
    let (seed, delay, often) = (r.next(), 3000 + r.below(1000), r.below(10));
    let options = format!("--seed={seed}\0--c2s-delay-ms={delay}\0--c2s-jitter-ms={jitter}\0--c2s-duplicate=0.{often}\0");
    let reordered = "--c2s-reorder=0.1\0--c2s-reorder-delay-ms=500\0".to_string();
    (options + &reordered).into_bytes()
}

// Its option text, its creation and its calls.
pub fn lines(r: &mut SplitMix) -> Vec<String> {
    let (capacity, width) = r.pick(&SIZES);
    let mut lines = vec![line_of(&text(r)), format!("create c2s {} {capacity} {width}", r.next())];
    let mut now = 0.0;
    lines.extend((0..capacity).map(|_| arrival(r, &mut now, width)));
    lines.push("p".to_string());
    now = 3000.0;
    lines.extend((0..capacity).map(|_| release(r, &mut now)));
    lines.extend((0..capacity / 3).map(|_| arrival(r, &mut now, width)));
    lines.extend(vec![format!("r {}", bits(LAST)); capacity / 2]);
    lines.extend(["p", "t", "p"].map(str::to_string));
    lines
}

// Most packets are short, some are as long as a slot, and some come together.
fn arrival(r: &mut SplitMix, now: &mut f64, width: usize) -> String {
    *now += r.pick(&[0.0, 0.5, 1.0, 2.25]);
    let short = r.below(64);
    let length = r.pick(&[width, short, short, short, short, short, short, short]);
    format!("a {} {length} {} {}", bits(*now), r.below(8), r.below(1000))
}

fn release(r: &mut SplitMix, now: &mut f64) -> String {
    *now += r.pick(&[0.0, 0.0, 2.0, 15.0]);
    format!("r {}", bits(*now))
}
