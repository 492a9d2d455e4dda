// Calls on a queue, and the answers that the port must give to them.
//   queues make SEED COUNT   prints a script of COUNT calls that are drawn from SEED, on many queues one after the other
//   queues answer            reads a script and prints its answers
//   queues count             reads answers and says on stderr how many there are of each kind
mod config;
mod copies;
mod creations;
mod impair;
mod instants;
mod print;
mod queue_answers;
mod queue_calls;
mod rng;
mod sizes;
mod split_mix;
mod stats;
mod streams;
mod widths;

use queue_answers::Answers;
use queue_calls::Calls;
use split_mix::SplitMix;
use std::io::{self, BufWriter, Write};

// Prints the lines of queues, until there are so many; the first calls come before a queue is made.
fn make(seed: u64, count: usize, out: &mut impl Write) -> io::Result<()> {
    let mut r = SplitMix(seed);
    let mut left = count;
    let mut calls = Calls::before();
    let mut lines = 10;
    while left > 0 {
        let end = left.saturating_sub(lines);
        while left > end {
            for line in calls.lines(&mut r, left - end) {
                writeln!(out, "{line}")?;
                left -= 1;
            }
        }
        if left > 0 {
            let (line, drawn) = Calls::drawn(&mut r);
            calls = drawn;
            writeln!(out, "{line}")?;
            left -= 1;
            lines = calls.count(&mut r);
        }
    }
    Ok(())
}

// The kinds of the answers: the first word of each, the number of a refusal, and whether a released copy has the due of the one released before it.
fn kinds() -> impl Iterator<Item = (String, u64)> {
    let mut before = String::new();
    streams::lines().flat_map(move |line| {
        let answer = String::from_utf8_lossy(&line).into_owned();
        let words: Vec<&str> = answer.split(' ').collect();
        let mut found = vec![(words[0].to_string(), 1)];
        match words[..] {
            ["refused", ..] | ["bad", ..] => found[0].0 = answer.clone(),
            ["released", due, ..] => {
                if due == before {
                    found.push(("released with the due of the one before".to_string(), 1));
                }
                before = due.to_string();
            }
            _ => before.clear(),
        }
        found
    })
}

fn main() -> io::Result<()> {
    let arguments: Vec<String> = std::env::args().skip(1).collect();
    let words: Vec<&str> = arguments.iter().map(String::as_str).collect();
    let mut out = BufWriter::new(io::stdout().lock());
    match words[..] {
        ["make", seed, count] => make(seed.parse().expect("a seed"), count.parse().expect("a count"), &mut out)?,
        ["answer"] => {
            let mut answers = Answers::new();
            for line in streams::lines() {
                writeln!(out, "{}", answers.answer(&line))?;
            }
        }
        ["count"] => streams::count(kinds()),
        _ => panic!("queues make SEED COUNT, answer or count"),
    }
    out.flush()
}
