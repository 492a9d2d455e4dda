// Option texts with options of the other mode, chosen by rule: each, every two and every three of them, and what stands beside them.

use crate::fixed::list;
use crate::script::line_of;
use std::io::{self, Write};

const UDP: &str = "--mode=udp\0";
const TCP: &str = "--mode=tcp\0";

// What is refused under tcp, in the order in which the source checks: 31, 32, 33. X stands for a direction, here and below.
const SLIPS: [&str; 3] = ["--X-nat-change-every-ms=5\0", "--X-reorder=0.5\0--X-reorder-delay-ms=1\0", "--X-duplicate=1\0"];

// What is refused under udp: 20.
const KILLS: [&str; 1] = ["--X-kill=1:2:rst\0"];

// What else stands under tcp, with its number where it is refused.
const OTHERS: [&str; 14] = [
    // the least values
    "--X-nat-change-every-ms=1\0", // 31
    "--X-reorder=.000000000000001\0--X-reorder-delay-ms=.000000000000001\0", // 32
    "--X-duplicate=.000000000000001\0", // 33
    // what tcp takes
    "--X-reorder=0\0",
    "--X-reorder-delay-ms=1\0",
    "--X-duplicate=0.0\0",
    "--X-kill=1:2:rst\0",
    // options that are given twice, of which the last counts
    "--X-nat-change-every-ms=0\0--X-nat-change-every-ms=5\0", // 31
    "--X-reorder=0\0--X-reorder-delay-ms=1\0--X-reorder=0.5\0", // 32
    "--X-reorder=0.5\0--X-reorder-delay-ms=1\0--X-reorder=0\0",
    "--X-duplicate=0\0--X-duplicate=1\0", // 33
    "--X-duplicate=1\0--X-duplicate=0\0",
    // reorder without its delay
    "--X-reorder=0.5\0", // 14
    "--X-reorder=0.5\0--c2s-nat-change-every-ms=5\0", // 14
];

// What is refused before what the mode does not have.
const FAULTS: [&str; 4] = [
    "--X-nat-change-every-ms=0\0", // 9
    "--X-loss=2\0", // 11
    "--X-reorder=1\0--X-reorder-delay-ms=0\0", // 14
    "--X-kill=1:2:x\0", // 18
];

pub fn script(out: &mut impl Write) -> io::Result<()> {
    for text in texts() {
        writeln!(out, "{}", line_of(text.as_bytes()))?;
    }
    Ok(())
}

fn texts() -> Vec<String> {
    let (slips, kills) = (in_both(&SLIPS), in_both(&KILLS));
    let (all_slips, all_kills) = (vec![slips.concat()], vec![kills.concat()]);
    let with_kills = joined(&slips, &all_kills);
    let under_tcp = [
        slips.clone(),
        joined(&slips, &slips),
        threes(&slips),
        in_both(&OTHERS),
        with_kills.clone(),
        joined(&slips, &in_both(&FAULTS)),
        joined(&all_slips, &["c2s-blackout", "s2c-kill"].map(|key| list(key, 129, &[]))),
    ];
    let under_udp = [kills.clone(), joined(&kills, &kills), with_kills, slips.clone(), all_slips].concat();
    [
        joined(&[TCP.to_string()], &under_tcp.concat()),
        joined(&[UDP.to_string()], &under_udp),
        under_udp,
        two_modes(&[&slips[..], &kills].concat()),
        late_modes(&slips),
    ]
    .concat()
}

// Each for the one direction, and then each for the other.
fn in_both(options: &[&str]) -> Vec<String> {
    ["c2s", "s2c"].iter().flat_map(|direction| options.iter().map(move |option| option.replace('X', direction))).collect()
}

// Each of the fronts with each of the backs behind it, but none with itself.
fn joined(fronts: &[String], backs: &[String]) -> Vec<String> {
    let with_backs = |front| backs.iter().filter(move |back| *back != front).map(move |back| format!("{front}{back}"));
    fronts.iter().flat_map(with_backs).collect()
}

// Every three, the one that is checked last in front.
fn threes(options: &[String]) -> Vec<String> {
    let places = |last| (0..last).flat_map(move |middle| (0..middle).map(move |first| [last, middle, first]));
    (0..options.len()).flat_map(places).map(|three| three.map(|place| options[place].as_str()).concat()).collect()
}

// Each between one mode and the other, of which the last counts.
fn two_modes(options: &[String]) -> Vec<String> {
    options.iter().flat_map(|option| [[UDP, option, TCP].concat(), [TCP, option, UDP].concat()]).collect()
}

// Each and the next with the mode between them and behind them.
fn late_modes(slips: &[String]) -> Vec<String> {
    slips.windows(2).flat_map(|two| [[&two[0], TCP, &two[1]].concat(), [&two[0], &two[1], TCP].concat()]).collect()
}
