// Values of options, at and around their limits. With care they are such as the port takes, without it any.

use crate::split_mix::SplitMix;

const PROBABILITIES: [&str; 18] = [
    "0", "1", "1.0", "0.5", ".5", "+.5", "+1.", "00.5", "0.", ".0", "+0", "0.25", "000000000000001", "1.00000000000000",
    ".00000000000001", ".000000000000001", ".99999999999999", ".999999999999999",
];

const TIMES: [&str; 14] = [
    "0", "1", "5.", "+2", ".5", "+.5", "0.0", "100", "00020", "0.001", "99999999999999", "999999999999999", "99999999999999.9",
    ".000000000000001",
];

const LOOSE_DECIMALS: [&str; 44] = [
    "", ".", "+", "+.", "-", "-0", "-0.5", "-1", "+-1", "++1", "1+", "nan", "NaN", "-nan", "inf", "+inf", "-inf", "Infinity",
    "infinity", "1e0", "1e3", "5e-1", "1E-1", ".e1", "1.5", "2", "5.", "1.00000000000001", "1.000000000000001",
    "1.000000000000000", "0.000000000000000", ".9999999999999999", "9999999999999999", "0000000000000001", "1..", "0..5", ".5.",
    "0,5", "0x1", "1_0", " 0.5", "0.5 ", "0.5:", "--",
];

const WHOLES: [&str; 20] = [
    "1", "2", "7", "8", "+5", "007", "1499", "1500", "1501", "2048", "8000", "11999", "12000", "12001", "12007", "12008",
    "9007199254740991", "9007199254740992", "+9007199254740992", "00000000000000000000009007199254740992",
];

const SEEDS: [&str; 10] = [
    "0", "1", "42", "+0", "9007199254740992", "9007199254740993", "9223372036854775808", "18446744073709551615",
    "+18446744073709551615", "00018446744073709551615",
];

const LOOSE_WHOLES: [&str; 32] = [
    "0", "+0", "000", "9007199254740993", "+9007199254740993", "09007199254740993", "9007199254740994", "9223372036854775807",
    "18446744073709551614", "18446744073709551615", "0018446744073709551615", "18446744073709551616", "18446744073709551617",
    "018446744073709551616", "99999999999999999999", "100000000000000000000", "340282366920938463463374607431768211456", "", "+",
    "-", "-0", "-1", "+-1", "++1", "1+", "1.0", "1.", "0x10", "1_000", " 1", "1 ", "one",
];

// What Rust trims around a bound, and some that it does not.
const BLANKS: [&str; 8] = [" ", "  ", "\t", "\n", "\u{b}", "\u{c}", "\r", " \t\r\n"];
const NO_BLANKS: [&str; 7] = ["\u{8}", "\u{e}", "\u{1c}", "\u{1f}", "\u{7f}", "_", "!"];

const LOOSE_STYLES: [&str; 10] = ["", "RST", "Hold", "rs", "rstt", "holds", " rst", "rst ", "hold\t", "rst|hold"];

// So many digits, each drawn.
fn digits(r: &mut SplitMix, count: usize) -> String {
    (0..count).map(|_| (b'0' + r.below(10) as u8) as char).collect()
}

// Up to so many digits, with a point somewhere or none.
fn any_decimal(r: &mut SplitMix, most: usize) -> String {
    let count = 1 + r.below(most);
    let mut decimal = digits(r, count);
    if r.percent(70) {
        decimal.insert(r.below(count + 1), '.');
    }
    if r.percent(10) { format!("+{decimal}") } else { decimal }
}

pub fn probability(r: &mut SplitMix, care: bool) -> String {
    let count = 1 + r.below(14);
    match (care, r.below(4)) {
        (true, 0) => r.pick(&PROBABILITIES).to_string(),
        (true, 1) => format!("0.{}", digits(r, count)),
        (true, 2) => format!(".{}", digits(r, count + 1)),
        (true, _) => format!("0.{}", digits(r, 2)),
        (false, 0) => any_decimal(r, 17),
        (false, 1) => format!("1.{}", digits(r, count)),
        (false, _) => r.pick(&LOOSE_DECIMALS).to_string(),
    }
}

// A probability above 0.
pub fn some_probability(r: &mut SplitMix) -> String {
    let any = probability(r, true);
    if any.parse() == Ok(0.0) { ".000000000000001".to_string() } else { any }
}

pub fn time(r: &mut SplitMix, care: bool) -> String {
    match (care, r.below(3)) {
        (true, 0) => r.pick(&TIMES).to_string(),
        (true, 1) => any_decimal(r, 15),
        (true, _) => r.below(1000).to_string(),
        (false, 0) => any_decimal(r, 17),
        (false, _) => r.pick(&LOOSE_DECIMALS).to_string(),
    }
}

// A time above 0.
pub fn some_time(r: &mut SplitMix) -> String {
    r.pick(&["1", "5.", "+2", ".5", "20", "0.001", ".000000000000001", "999999999999999"]).to_string()
}

pub fn burst_loss(r: &mut SplitMix, care: bool) -> String {
    if care {
        let above_zero = ["1", "0.02", ".5", "+.25", "1.00000000000000", ".000000000000001"];
        return format!("{}:{}:{}", r.pick(&above_zero), r.pick(&above_zero), probability(r, true));
    }
    match r.below(6) {
        0 => r.pick(&["", ":", "::", ":::", ".5:.5", ".5:.5:.5:", ":.5:.5:.5", ".5:.5:.5:.5", "0.5"]).to_string(),
        1 => r.pick(&["0:1:1", "1:0:1", "0:0:0", "0.0:+.5:.1", ".5:.000:2", "2:0:1", "0:x:1"]).to_string(),
        _ => {
            let taken = [r.percent(60), r.percent(60), r.percent(60)];
            taken.map(|care| probability(r, care)).join(":")
        }
    }
}

pub fn whole(r: &mut SplitMix, care: bool) -> String {
    match (care, r.below(4)) {
        (true, 0) => (1 + r.below(1 << 53)).to_string(),
        (true, 1) => (1 + r.below(20_000)).to_string(),
        (true, _) => r.pick(&WHOLES).to_string(),
        (false, 0) => r.pick(&["0", "0", "9007199254740993", "18446744073709551615"]).to_string(),
        (false, 1) => (r.next() >> r.below(64)).to_string(),
        (false, _) => r.pick(&LOOSE_WHOLES).to_string(),
    }
}

// A whole number that may be 0.
pub fn whole_or_zero(r: &mut SplitMix, care: bool) -> String {
    if r.percent(15) { "0".to_string() } else { whole(r, care) }
}

pub fn seed(r: &mut SplitMix, care: bool) -> String {
    match (care, r.percent(50)) {
        (true, true) => r.pick(&SEEDS).to_string(),
        (true, false) => r.next().to_string(),
        (false, _) => r.pick(&LOOSE_WHOLES).to_string(),
    }
}

// A window that is taken: most are short and early, some late.
fn taken_window(r: &mut SplitMix) -> String {
    let most = r.pick(&[1000, 1000, 1000, 1000, 1 << 53]);
    let start = r.below(most);
    let end = start + 1 + r.below(1000.min((1 << 53) - start));
    match r.below(8) {
        0 => format!("{}{start}:{end}{}", r.pick(&BLANKS), r.pick(&BLANKS)),
        1 => format!("{start}{}:{}{end}", r.pick(&BLANKS), r.pick(&BLANKS)),
        2 => format!("0{start}:+{end}"),
        3 => format!("{start}:9007199254740992"),
        _ => format!("{start}:{end}"),
    }
}

pub fn window(r: &mut SplitMix, care: bool) -> String {
    if care {
        return taken_window(r);
    }
    let n = 2 + r.below(100);
    match r.below(9) {
        0 => r.pick(&["", "5", "1-2", "1;2", "x", " "]).to_string(),
        8 => r.pick(&[":", "::", "1:2:3", "1:2:", ":1:2"]).to_string(),
        1 => format!("{n}:{n}"),
        2 => format!("{n}:{}", n - 1),
        3 => format!("{}{n}:{}", r.pick(&NO_BLANKS), n + 1),
        4 => format!("{n}:{}{}", n + 1, r.pick(&NO_BLANKS)),
        5 => format!("{n}:{}", whole(r, false)),
        6 => format!("{}:{n}", whole(r, false)),
        _ => format!("{}{}:{}{}", r.pick(&BLANKS), whole(r, false), whole(r, false), r.pick(&BLANKS)),
    }
}

pub fn kill(r: &mut SplitMix, care: bool) -> String {
    let style = r.pick(&["rst", "hold"]);
    if care {
        return format!("{}:{style}", window(r, true));
    }
    match r.below(7) {
        0 => window(r, true),
        1 => format!("{}:{style}:", window(r, true)),
        2 => format!("{}:{style}:{style}", window(r, true)),
        3 => format!("{}:{}", window(r, true), r.pick(&LOOSE_STYLES)),
        4 => format!("{}:{}", window(r, false), r.pick(&LOOSE_STYLES)),
        _ => format!("{}:{style}", window(r, false)),
    }
}
