// Answer lines for the program summary.

use crate::floats::FLOATS;
use crate::instants::bits;
use crate::print::{count, float};
use crate::script::line_of;
use crate::split_mix::SplitMix;
use std::io::{self, Write};

const MOST: u64 = (1 << 60) - 1;

// Kills are for tcp; duplicates, reordering and changes of address for udp.
const DROPS: &str = "--mode=tcp --seed=3 --c2s-loss=0.1 --c2s-ge=0.2:0.3:0.9 --c2s-mtu=1000 --c2s-rate-bps=400000 --c2s-rate-burst-bytes=2000 \
     --c2s-delay-ms=10 --c2s-blackout=200:240 --c2s-kill=300:340:hold --c2s-kill=388:390:rst";
const OTHERS: &str = "--seed=4 --c2s-jitter-ms=3000 --c2s-duplicate=0.5 --c2s-reorder=0.3 --c2s-reorder-delay-ms=4000.5 --c2s-nat-change-every-ms=40";

// Numbers at the ends of their ranges and of fifteen digits.
const LONG: &str = "--seed=18446744073709551615 --duration-ms=9007199254740992 --verbose --queue-cap=1 --c2s-loss=.123456789012345 \
     --c2s-ge=.000000000000001:1:0.50 --c2s-delay-ms=999999999999999 --c2s-jitter-ms=123456789.012345 --s2c-delay-ms=99999999999999.9 \
     --s2c-jitter-ms=0.00000000000001 --s2c-reorder=1 --s2c-reorder-delay-ms=+5. --s2c-duplicate=0.30 --s2c-rate-bps=1 --s2c-mtu=9007199254740992 \
     --s2c-blackout=0:1 --s2c-blackout=9007199254740991:9007199254740992 --s2c-nat-change-every-ms=1";

pub fn script(out: &mut impl Write) -> io::Result<()> {
    options(out, "")?;
    writeln!(out, "create c2s 0 1\np")?;
    options(out, LONG)?;
    options(out, DROPS)?;
    device(out, 8, 40)?;
    options(out, OTHERS)?;
    device(out, 1024, 8000)
}

fn options(out: &mut impl Write, arguments: &str) -> io::Result<()> {
    let text: String = arguments.split_whitespace().map(|argument| format!("{argument}\0")).collect();
    writeln!(out, "{}", line_of(text.as_bytes()))
}

// A hundred packets, one every 4 ms, and a release after each second one; then sixty releases within `span` ms, and a teardown of what is left.
fn device(out: &mut impl Write, capacity: usize, span: u64) -> io::Result<()> {
    writeln!(out, "create c2s 1 {capacity}")?;
    for i in 0..100u64 {
        let now = bits((i * 4) as f64);
        writeln!(out, "a {now} {} 1 {i}\nb {now}", i % 7 * 190)?;
        if i % 2 == 0 {
            writeln!(out, "r {now}")?;
        }
    }
    for i in 0..60 {
        writeln!(out, "r {}", bits((400 + i * span / 60) as f64))?;
    }
    writeln!(out, "p\nt\np")
}

fn report(counts: [u64; 27], times: [f64; 3], held: u64, torn: u64) -> String {
    format!("report{}{} held {held} torn {torn}", counts.map(count).concat(), times.map(float).concat())
}

// Fifteen counts that come out, or not, and a histogram.
fn counted(packets: u64, sent: u64, hist: [u64; 12]) -> [u64; 27] {
    let mut counts = [0; 27];
    counts[0] = packets;
    counts[1] = packets;
    counts[2] = sent;
    counts[3] = sent;
    counts[14] = sent;
    counts[15..].copy_from_slice(&hist);
    counts
}

// Reports with one float after the other as all three times, with counters that are all 2^60 - 1, whose bars are of one length and of all lengths; lines that
// are no reports; refusals from 0, a number that none has, to 33; a line that was no call; and 34, a number that none has.
pub fn edges(out: &mut impl Write) -> io::Result<()> {
    let ties = [0.0005, 0.0015, 0.0625, 0.1875, 999.9995, 2.5e-4, 4.9999e-4, 1e23, 5000.0, f64::MIN_POSITIVE];
    for x in FLOATS.into_iter().chain(ties) {
        writeln!(out, "{}", report(counted(2, 2, [0, 1, 0, 0, 0, 0, 0, 0, 0, 0, 0, 1]), [x, x, x], 0, 0))?;
    }
    let all = report([MOST; 27], [MOST as f64 * 5000.0, f64::NAN, 5000.0], MOST, MOST);
    writeln!(out, "{all}")?;
    let rising = [0, 1, 39, 40, 41, 79, 80, 81, 1600, 1601, 3999, 4000];
    writeln!(out, "{}", report(counted(11562, 11562, rising), [1.0, 0.0, 1.0], 0, 0))?;
    writeln!(out, "{}", report(counted(11562, 11561, rising), [1.0, 0.0, 1.0], 0, 0))?;
    writeln!(out, "{}", report(counted(40, 40, [40; 12]), [1.0, 0.0, 1.0], 0, 0))?;
    writeln!(out, "{}", report(counted(7, 2, [0; 12]), [1.0, 0.0, 1.0], 2, 3))?;
    let wrong = [
        all.replace("held ", "kept "),
        all.replace("torn", "held"),
        format!("{all} "),
        format!("{all} bytes 0"),
        all.replacen("1152921504606846975", "1152921504606846976", 1),
        all.replacen("1152921504606846975", "", 1),
        all.replacen("1152921504606846975", "-1", 1),
        all.replace("nan", "NaN"),
        "report".to_string(),
        "report ".to_string(),
        "reports 1".to_string(),
    ];
    for line in wrong {
        writeln!(out, "{line}")?;
    }
    for number in 0..=33 {
        writeln!(out, "refused {number}")?;
    }
    writeln!(out, "bad line\nbad line \nbad\n\nnone\ntorn 3\nrefused 34")
}

// Reports with counters and times of all sizes.
pub fn make(seed: u64, lines: u64, out: &mut impl Write) -> io::Result<()> {
    let mut r = SplitMix(seed);
    for _ in 0..lines {
        let counts = std::array::from_fn(|_| sized(&mut r));
        let times = std::array::from_fn(|_| time(&mut r));
        writeln!(out, "{}", report(counts, times, sized(&mut r), sized(&mut r)))?;
    }
    Ok(())
}

// A number below 2^60 with any number of bits.
fn sized(r: &mut SplitMix) -> u64 {
    r.next() & MOST >> r.below(61)
}

// Any float, one as latencies are, or one that lies between two thousandths.
fn time(r: &mut SplitMix) -> f64 {
    match r.below(3) {
        0 => f64::from_bits(r.next()),
        1 => sized(r) as f64 / (1u64 << r.below(40)) as f64,
        _ => sized(r) as f64 / 16.0 / 1000.0,
    }
}
