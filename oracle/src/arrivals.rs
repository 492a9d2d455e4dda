// Calls on an arrival engine, and the answers that the port must give to them.
//   arrivals make SEED COUNT MOST   prints a script of COUNT calls that are drawn from SEED, on engines of at most MOST calls each
//   arrivals answer                 reads a script and prints its answers
//   arrivals count                  reads answers and says on stderr how many there are of each kind
mod answers;
mod config;
mod differences;
mod engine_answers;
mod engine_calls;
mod engine_texts;
mod impair;
mod instants;
mod long_texts;
mod print;
mod refusals;
mod rng;
mod script;
mod split_mix;
mod stats;
mod streams;
mod texts;
mod values;
mod well_formed;
mod widths;

use config::DirectionConfig;
use engine_answers::Answers;
use engine_calls::Calls;
use split_mix::SplitMix;
use std::io::{self, BufWriter, Write};
use widths::LONGEST;

// The counters of a statistics line.
const COUNTERS: [&str; 11] = [
    "packets", "bytes", "random", "ge", "mtu", "blackout", "overflow", "duplicates", "reorder hits", "deferred", "rebinds",
];

// How many calls come before the first engine is made.
const BEFORE: usize = 10;

// Prints calls on engines, until there are so many.
fn make(seed: u64, count: usize, most: usize, out: &mut impl Write) -> io::Result<()> {
    let mut r = SplitMix(seed);
    let mut left = count.saturating_sub(BEFORE);
    calls(&mut r, &DirectionConfig::default(), count - left, out)?;
    while left > 0 {
        let count = (1 + most / 2 + r.below(most / 2)).min(left);
        engine(&mut r, count, out)?;
        left -= count;
    }
    Ok(())
}

// Prints the lines of one engine: its option text, its direction and seed, and its calls.
fn engine(r: &mut SplitMix, count: usize, out: &mut impl Write) -> io::Result<()> {
    let text = if r.percent(95) { engine_texts::text(r) } else { texts::text(r) };
    let settings = answers::settings_of(&text).unwrap_or_default();
    let (direction, own) = r.pick(&[("c2s", &settings.c2s), ("s2c", &settings.s2c)]);
    let any = r.next();
    let seed = r.pick(&[0, 1, u64::MAX, any, any, any, any]);
    writeln!(out, "{}\nengine {direction} {seed}", script::line_of(&text))?;
    calls(r, own, count, out)
}

// Prints so many calls on an engine of these settings; the last one asks for the statistics.
fn calls(r: &mut SplitMix, settings: &DirectionConfig, count: usize, out: &mut impl Write) -> io::Result<()> {
    let mut calls = Calls::new(settings, LONGEST);
    for _ in 1..count {
        writeln!(out, "{}", calls.line(r))?;
    }
    writeln!(out, "s")
}

// The kinds of the answers. What a statistics line adds to the one before it counts as so many of its own kinds.
fn kinds() -> impl Iterator<Item = (String, u64)> {
    let mut before = vec![0; COUNTERS.len()];
    streams::lines().flat_map(move |line| {
        let answer = String::from_utf8_lossy(&line).into_owned();
        if answer == "created" {
            before = vec![0; COUNTERS.len()];
        }
        let mut found = vec![(kind(&answer), 1)];
        if let Some(counts) = answer.strip_prefix("stats ") {
            let counts: Vec<u64> = counts.split(' ').map(|count| count.parse().unwrap()).collect();
            let more = counts.iter().zip(&before).map(|(now, before)| now - before);
            found.extend(COUNTERS.iter().map(|name| format!("counted {name}")).zip(more));
            before = counts;
        }
        found
    })
}

// The kind of an answer: all of it, but for instants and counts.
fn kind(answer: &str) -> String {
    let words: Vec<&str> = answer.split(' ').collect();
    match words[..] {
        ["enqueue", _, copies] => format!("enqueue {copies}"),
        ["stats", ..] => "stats".to_string(),
        _ => answer.to_string(),
    }
}

fn main() -> io::Result<()> {
    let arguments: Vec<String> = std::env::args().skip(1).collect();
    let words: Vec<&str> = arguments.iter().map(String::as_str).collect();
    let mut out = BufWriter::new(io::stdout().lock());
    match words[..] {
        ["make", seed, count, most] => {
            let number = |word: &str| word.parse().expect("a count");
            make(seed.parse().expect("a seed"), number(count), number(most), &mut out)?;
        }
        ["answer"] => {
            let mut answers = Answers::new();
            for line in streams::lines() {
                writeln!(out, "{}", answers.answer(&line))?;
            }
        }
        ["count"] => streams::count(kinds()),
        _ => panic!("arrivals make SEED COUNT MOST, answer or count"),
    }
    out.flush()
}
