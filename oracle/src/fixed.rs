// Option texts that are chosen by hand, and lines that no script has.

use crate::script::line_of;
use std::io::{self, Write};

// Document 01's lines to check.
const LINES: [&str; 19] = [
    "--c2s-loss=.5\0",
    "--c2s-loss=5.\0",
    "--c2s-delay-ms=5.\0",
    "--s2c-jitter-ms=+2\0",
    "--s2c-loss=+.5\0",
    "--c2s-loss=.\0",
    "--c2s-delay-ms=.\0",
    "--c2s-loss=nan\0",
    "--c2s-delay-ms=nan\0",
    "--c2s-loss=1e3\0",
    "--c2s-delay-ms=1e3\0",
    "--c2s-loss=0.000000000000000\0",
    "--c2s-delay-ms=1234567890123456\0",
    "--duration-ms=9007199254740992\0",
    "--duration-ms=9007199254740993\0",
    "--c2s-los=0.5\0",
    "--c2s-blackout=10:20\0",
    "--c2s-mtu=1500\0",
    "--c2s-rate-bps=8000\0",
];

// Where port and Rust part, but for the texts of 1 and 19, which are built below.
const DIFFERENCES: [&str; 46] = [
    // 2 and 3
    "x",
    "--mode=udp",
    "\u{80}\0",
    "--bind=\u{80}\0",
    // 8, for each whole number but the seed, which may be any
    "--queue-cap=9007199254740992\0",
    "--queue-cap=9007199254740993\0",
    "--c2s-rate-bps=9007199254740992\0",
    "--c2s-rate-bps=9007199254740993\0",
    "--c2s-rate-burst-bytes=9007199254740992\0",
    "--c2s-rate-burst-bytes=9007199254740993\0",
    "--s2c-mtu=9007199254740992\0",
    "--s2c-mtu=9007199254740993\0",
    "--s2c-nat-change-every-ms=9007199254740992\0",
    "--s2c-nat-change-every-ms=9007199254740993\0",
    "--s2c-blackout=9007199254740991:9007199254740992\0",
    "--s2c-blackout=9007199254740992:9007199254740993\0",
    "--s2c-blackout=9007199254740993:9007199254740994\0",
    "--mode=tcp\0--c2s-kill=0:9007199254740992:rst\0",
    "--mode=tcp\0--c2s-kill=0:9007199254740993:rst\0",
    "--mode=tcp\0--c2s-kill=9007199254740993:0:rst\0",
    "--duration-ms=18446744073709551615\0",
    "--duration-ms=0000000000000000000000000000000000000000009007199254740993\0",
    "--seed=9007199254740993\0",
    "--seed=18446744073709551615\0",
    // 10, for texts that the Rust takes
    "--c2s-loss=-0\0",
    "--c2s-loss=1e0\0",
    "--c2s-loss=1.000000000000000\0",
    "--c2s-delay-ms=inf\0",
    "--c2s-delay-ms=+infinity\0",
    "--c2s-delay-ms=-0.0\0",
    "--c2s-delay-ms=0000000000000001\0",
    "--c2s-ge=1:1:1e-1\0",
    "--c2s-ge=1:-0:1\0",
    // 10, for texts that the Rust refuses by their range
    "--c2s-loss=-1\0",
    "--c2s-loss=inf\0",
    "--c2s-loss=2.000000000000000\0",
    "--c2s-delay-ms=-1\0",
    "--c2s-delay-ms=-inf\0",
    "--c2s-ge=nan:1:1\0",
    // the four keys that are left out
    "--bind=x\0",
    "--upstream\0x\0",
    "--stats-file=\0",
    "--port-file\0--mode=x\0",
    "--bind\0",
    "--upstream=1.2.3.4:5\0--bind\0[::1]:80\0--seed=2\0",
    "------bind=x\0",
];

// Decimals and whole numbers at their limits.
const NUMBERS: [&str; 37] = [
    "--c2s-loss=0\0",
    "--c2s-loss=1\0",
    "--c2s-loss=1.00000000000000\0",
    "--c2s-loss=1.00000000000001\0",
    "--c2s-loss=.999999999999999\0",
    "--c2s-loss=.9999999999999999\0",
    "--c2s-loss=000000000000001\0",
    "--c2s-loss=0.1\0",
    "--c2s-delay-ms=0.3\0",
    "--c2s-delay-ms=999999999999999\0",
    "--c2s-delay-ms=+99999999999999.9\0",
    "--c2s-delay-ms=\0",
    "--c2s-delay-ms=+\0",
    "--c2s-delay-ms=+.\0",
    "--c2s-delay-ms=++1\0",
    "--c2s-delay-ms=1.2.3\0",
    "--c2s-delay-ms= 1\0",
    "--c2s-delay-ms=1 \0",
    "--seed=0\0",
    "--seed=+0\0",
    "--seed=00000000000000000000000000000018446744073709551615\0",
    "--seed=18446744073709551616\0",
    "--seed=99999999999999999999999999\0",
    "--seed=\0",
    "--seed=+\0",
    "--seed=-0\0",
    "--seed= 1\0",
    "--seed=1 \0",
    "--duration-ms=0\0",
    "--duration-ms=18446744073709551616\0",
    "--c2s-rate-bps=11999\0",
    "--c2s-rate-bps=12007\0",
    "--c2s-rate-bps=12008\0",
    "--c2s-rate-bps=12008\0--c2s-rate-burst-bytes=0\0",
    "--c2s-rate-bps=12008\0--c2s-rate-burst-bytes=1\0",
    "--c2s-rate-burst-bytes=7\0",
    "--c2s-rate-burst-bytes=0\0",
];

// How arguments are parted into keys and values.
const FORMS: [&str; 46] = [
    "",
    "\0",
    "\0\0\0",
    "--\0",
    "--\0x\0",
    "--=\0",
    "--=v\0",
    "-\0",
    "x\0",
    "-mode=tcp\0",
    "mode=tcp\0",
    "--mode\0tcp\0",
    "--mode=tcp\0",
    "----mode=tcp\0",
    "------mode\0tcp\0",
    "---mode=tcp\0",
    "-----mode\0tcp\0",
    "--mode==tcp\0",
    "--mode=\0",
    "--mode\0\0",
    "--mode\0--mode=tcp\0",
    "--mode\0--mode\0tcp\0",
    "--bind\0--mode=tcp\0",
    "--bind\0--mode\0tcp\0",
    "--x\0--bind\0--seed=9\0",
    "--mode=x\0--mode=tcp\0",
    "--mode=tcp\0--mode=x\0",
    "--c2s-loss=2\0--c2s-loss\x000.5\0",
    "--c2s-blackout=3:4\0--s2c-blackout=5:6\0--c2s-blackout\x001:2\0",
    "--c2s-blackout\0--seed=9\0",
    "--x-blackout=x\0---kill=x\0--c2s-c2s-kill=x\0--blackout=x\0",
    "--verbose\0",
    "----verbose\0",
    "---verbose\0",
    "--verbose\x001\0",
    "--verbose=1\0",
    "--verbose=true\0",
    "--verbose=yes\0",
    "--verbose=on\0",
    "--verbose=0\0",
    "--verbose=\0",
    "--verbose=TRUE\0",
    "--verbose\0--verbose=0\0",
    "--verbose=0\0--verbose\0",
    "--verbose=1\0--verbose=0\0",
    "--seed\0--verbose\0",
];

// Windows, kills and burst losses, and which of two faults in one of them is refused.
const PARTS: [&str; 43] = [
    "--c2s-blackout= \t\n\u{b}\u{c}\r1 : 2 \r\0",
    "--c2s-blackout=\u{8}1:2\0",
    "--c2s-blackout=1:2\u{e}\0",
    "--c2s-blackout=\u{1f}1:2\0",
    "--c2s-blackout=1 0:20\0",
    "--c2s-blackout=:\0",
    "--c2s-blackout=1:\0",
    "--c2s-blackout=1:2:3\0",
    "--c2s-blackout=+1:+02\0",
    "--c2s-blackout=2:2\0",
    "--c2s-blackout=x\0",
    "--c2s-blackout=x:9007199254740993\0",
    "--c2s-blackout=9007199254740993:x\0",
    "--c2s-blackout= 9007199254740993 :1\0",
    "--c2s-blackout=2: 9007199254740993\0",
    "--c2s-blackout=9007199254740993:2:3\0",
    "--c2s-blackout=2:9007199254740993:\0",
    "--c2s-blackout=18446744073709551616:1\0",
    "--c2s-blackout=2:1\0--c2s-blackout=x:1\0",
    "--mode=tcp\0--c2s-kill=1:2:rst\0--c2s-kill= 3 : 4 :hold\0",
    "--mode=tcp\0--c2s-kill=1:2\0",
    "--mode=tcp\0--c2s-kill=1:2:rst:\0",
    "--mode=tcp\0--c2s-kill=::\0",
    "--mode=tcp\0--c2s-kill=1:2:\0",
    "--mode=tcp\0--c2s-kill=1:2: rst\0",
    "--mode=tcp\0--c2s-kill=1:2:RST\0",
    "--mode=tcp\0--c2s-kill=x:y\0",
    "--mode=tcp\0--c2s-kill=x:2:x\0",
    "--mode=tcp\0--c2s-kill=1:9007199254740993:x\0",
    "--mode=tcp\0--c2s-kill=2:1:x\0",
    "--c2s-ge=0.02:0.5:0.9\0",
    "--c2s-ge=1:1:0\0",
    "--c2s-ge=1:1\0",
    "--c2s-ge=1:1:1:1\0",
    "--c2s-ge=x:2\0",
    "--c2s-ge=x:2:1\0",
    "--c2s-ge=2:x:1\0",
    "--c2s-ge=0:2:x\0",
    "--c2s-ge=0:1:x\0",
    "--c2s-ge=0:1:2\0",
    "--c2s-ge=0:1:1\0",
    "--c2s-ge=1:0.0:1\0",
    "--c2s-ge=1::1\0",
];

// Texts that have words of the Rust's sentences in them.
const WORDS: [&str; 6] = [
    "--mode must be udp|tcp, got \"x\"\0",
    "--mode= needs a value\0",
    "--seed=\": not a number: \"x\"\0",
    "--c2s-loss=: not an integer: \"\0",
    "--c2s-ge=bad start \"\0",
    "bad end \" must be > 0\0",
];

// Options of the other mode.
const MODES: [&str; 15] = [
    "--c2s-kill=1:2:rst\0",
    "--mode=udp\0--s2c-kill=1:2:hold\0",
    "--s2c-kill=1:2:hold\0--mode=tcp\0",
    "--mode=tcp\0--c2s-nat-change-every-ms=1\0",
    "--mode=udp\0--c2s-nat-change-every-ms=1\0",
    "--mode=tcp\0--s2c-nat-change-every-ms=1\0",
    "--mode=tcp\0--c2s-reorder=1\0--c2s-reorder-delay-ms=1\0",
    "--mode=tcp\0--s2c-reorder=0\0--s2c-reorder-delay-ms=1\0",
    "--c2s-reorder=1\0--c2s-reorder-delay-ms=1\0",
    "--c2s-reorder=1\0--s2c-reorder-delay-ms=1\0",
    "--c2s-reorder=1\0--c2s-reorder-delay-ms=0.0\0",
    "--c2s-reorder=0\0--c2s-reorder-delay-ms=0\0",
    "--mode=tcp\0--c2s-duplicate=1\0",
    "--mode=tcp\0--s2c-duplicate=0.0\0",
    "--mode=tcp\0--s2c-duplicate=.000000000000001\0",
];

// One fault each, in the order in which the source checks; each alone has the number of its refusal.
const FAULTS: [&str; 61] = [
    "x\0", // 4
    "--seed\0", // 5
    "--mode=x\0", // 6
    "--seed=x\0", // 7
    "--duration-ms=x\0", // 7
    "--duration-ms=9007199254740993\0", // 8
    "--queue-cap=x\0", // 7
    "--queue-cap=9007199254740993\0", // 8
    "--queue-cap=0\0", // 9
    "--c2s-loss=x\0", // 10
    "--c2s-loss=2\0", // 11
    "--c2s-ge=1:1\0", // 12
    "--c2s-ge=x:1:1\0", // 10
    "--c2s-ge=1:2:1\0", // 11
    "--c2s-ge=0:1:1\0", // 13
    "--c2s-delay-ms=x\0", // 10
    "--c2s-jitter-ms=x\0", // 10
    "--c2s-reorder=x\0", // 10
    "--c2s-reorder=2\0", // 11
    "--c2s-reorder-delay-ms=x\0", // 10
    "--c2s-reorder=1\0", // 14
    "--c2s-duplicate=x\0", // 10
    "--c2s-duplicate=2\0", // 11
    "--c2s-rate-bps=x\0", // 7
    "--c2s-rate-bps=9007199254740993\0", // 8
    "--c2s-rate-bps=0\0", // 9
    "--c2s-rate-burst-bytes=x\0", // 7
    "--c2s-rate-burst-bytes=9007199254740993\0", // 8
    "--c2s-mtu=x\0", // 7
    "--c2s-mtu=9007199254740993\0", // 8
    "--c2s-mtu=0\0", // 9
    "--c2s-blackout=1\0", // 15
    "--c2s-blackout=x:2\0", // 7
    "--c2s-blackout=9007199254740993:2\0", // 8
    "--c2s-blackout=1:x\0", // 7
    "--c2s-blackout=1:9007199254740993\0", // 8
    "--c2s-blackout=2:1\0", // 16
    "--c2s-nat-change-every-ms=x\0", // 7
    "--c2s-nat-change-every-ms=9007199254740993\0", // 8
    "--c2s-nat-change-every-ms=0\0", // 9
    "--c2s-kill=1:2\0", // 17
    "--c2s-kill=x:2:rst\0", // 7
    "--c2s-kill=1:9007199254740993:rst\0", // 8
    "--c2s-kill=2:1:rst\0", // 16
    "--c2s-kill=1:2:x\0", // 18
    "--s2c-loss=x\0", // 10
    "--s2c-ge=1:1\0", // 12
    "--s2c-delay-ms=x\0", // 10
    "--s2c-jitter-ms=x\0", // 10
    "--s2c-reorder=2\0", // 11
    "--s2c-reorder=1\0", // 14
    "--s2c-duplicate=2\0", // 11
    "--s2c-rate-bps=0\0", // 9
    "--s2c-rate-burst-bytes=x\0", // 7
    "--s2c-mtu=9007199254740993\0", // 8
    "--s2c-blackout=1\0", // 15
    "--s2c-nat-change-every-ms=0\0", // 9
    "--s2c-kill=1:2:x\0", // 18
    "--c2s-kill=1:2:rst\0", // 20
    "--mode=tcp\0--c2s-nat-change-every-ms=1\0", // 31
    "--mode=tcp\0--s2c-duplicate=1\0", // 33
];

// Lines that are not of the form options HEX.
const BAD_LINES: [&str; 17] = [
    "", " ", "options", "option 00", "Options 00", "options00", " options 00", "options  00", "options 00 ", "options 00 00",
    "options\t00", "options 0", "options 2D00", "options 0g", "options 0x00", "options \u{b5}", "options 00\r",
];

// What lines of some 66,000 bytes end in: whole pairs of digits, half a pair, and no digits.
const LONG_ENDS: [&str; 4] = ["", "0", "g", "0g"];

pub fn script(out: &mut impl Write) -> io::Result<()> {
    let by_hand = [&LINES[..], &DIFFERENCES, &NUMBERS, &FORMS, &PARTS, &WORDS, &MODES, &FAULTS];
    let by_hand = by_hand.concat().into_iter().map(str::to_string);
    let texts = by_hand.chain(two_faults()).chain(long_lists()).map(String::into_bytes);
    for text in texts.chain(raw_bytes()).chain(long_texts()) {
        writeln!(out, "{}", line_of(&text))?;
    }
    for line in BAD_LINES {
        writeln!(out, "{line}")?;
    }
    for end in LONG_ENDS {
        writeln!(out, "options {}{end}", "2d".repeat(33_000))?;
    }
    writeln!(out, "{}", line_of(b""))
}

// Every two faults in one text, the one that is checked later first.
fn two_faults() -> Vec<String> {
    let earlier = |later: usize| FAULTS[..later].iter().map(move |fault| FAULTS[later].to_string() + fault);
    (0..FAULTS.len()).flat_map(earlier).collect()
}

// So many windows or kills, with one value in the place of each that is named.
pub fn list(key: &str, count: usize, named: &[(usize, &str)]) -> String {
    let style = if key.ends_with("-kill") { ":rst" } else { "" };
    let value = |place| match named.iter().find(|(at, _)| *at == place) {
        Some((_, value)) => value.to_string(),
        None => format!("{}:{place}{style}", place - 1),
    };
    (1..=count).map(|place| format!("--{key}={}\0", value(place))).collect()
}

// Lists of 128 and 129, and with a fault at the 129th or beside it.
fn long_lists() -> Vec<String> {
    let keys = ["c2s-blackout", "s2c-blackout", "c2s-kill", "s2c-kill"];
    let mut texts: Vec<String> = keys.iter().flat_map(|key| [128, 129].map(|count| list(key, count, &[]))).collect();
    let faults = ["x", "x:1", "9007199254740993:1", "1:x", "1:9007199254740993", "2:1"];
    texts.extend(faults.iter().map(|fault| list("c2s-blackout", 129, &[(129, fault)])));
    texts.extend(faults.iter().map(|fault| list("s2c-kill", 129, &[(129, &format!("{fault}:rst"))])));
    for (key, end) in [("s2c-blackout", ""), ("c2s-kill", ":hold")] {
        let (bad, good) = (format!("x{end}"), format!("8:9{end}"));
        texts.push(list(key, 129, &[(129, "1:2:x")]));
        texts.push(list(key, 129, &[(128, "2:1:x"), (129, "1:2:x")]));
        texts.push(list(key, 130, &[(129, &good), (130, &bad)]));
        texts.push(list(key, 130, &[(1, &bad)]));
    }
    texts = texts.into_iter().map(|text| format!("--mode=tcp\0{text}")).collect();
    texts.extend(lists_and_faults());
    texts
}

// Lists beside another list or another fault.
fn lists_and_faults() -> Vec<String> {
    let (windows, kills) = (list("c2s-blackout", 129, &[]), list("c2s-kill", 129, &[]));
    let most = ["c2s-blackout", "s2c-blackout", "c2s-kill", "s2c-kill"].map(|key| list(key, 128, &[])).concat();
    vec![
        "--mode=tcp\0".to_string() + &most,
        "--mode=udp\0".to_string() + &most,
        kills.clone(),
        "--mode=tcp\0".to_string() + &kills + &windows,
        windows.clone() + "--c2s-mtu=0\0",
        windows.clone() + "--c2s-nat-change-every-ms=0\0",
        windows + "--s2c-loss=2\0--seed=x\0",
        "--c2s-nat-change-every-ms=0\0".to_string() + &kills,
        "--s2c-loss=2\0".to_string() + &kills,
        list("x-blackout", 129, &[]) + &list("-kill", 130, &[]),
        "--bind=x\0".repeat(129) + &"--c2s-loss=.5\0".repeat(129) + &list("c2s-blackout", 128, &[]),
    ]
}

// Texts with bytes of 127 and above.
fn raw_bytes() -> Vec<Vec<u8>> {
    let texts = [&b"\x80"[..], b"\xff\0", b"x\xff\0", b"\xff", b"--mode=x\0\x80\0", b"--\x7f=\0", b"--c2s-blackout=\x851:2\0"];
    texts.map(<[u8]>::to_vec).to_vec()
}

// Texts of about the greatest length: 16,384 bytes are read to their end, and one more is refused whatever they are.
fn long_texts() -> Vec<Vec<u8>> {
    let (front, tail) = ("--other=", "\0--seed=7\0");
    [(16_383, tail), (16_384, tail), (16_384, "\0x\0"), (16_385, tail), (16_385, ""), (16_385, "\u{80}\0")]
        .map(|(length, back)| format!("{front}{}{back}", "x".repeat(length - front.len() - back.len())).into_bytes())
        .to_vec()
}
