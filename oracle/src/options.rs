// Option texts, and the answers that the port must give to them.
//   options make SEED COUNT       prints a script of COUNT texts that are drawn from SEED
//   options slipping SEED COUNT   prints a script of COUNT texts with options of the other mode that are drawn from SEED
//   options fixed                 prints a script of texts that are chosen by hand
//   options slips                 prints a script of texts with options of the other mode: each, every two and every three of them, and what stands beside them
//   options answer                reads a script and prints its answers
//   options count                 reads answers and says on stderr how many there are of each kind
mod answers;
mod config;
mod differences;
mod fixed;
mod long_texts;
mod refusals;
mod script;
mod slipping;
mod slips;
mod split_mix;
mod streams;
mod texts;
mod values;
mod well_formed;

use split_mix::SplitMix;
use std::io::{self, BufWriter, Write};

fn make(text: fn(&mut SplitMix) -> Vec<u8>, seed: &str, count: &str, out: &mut impl Write) -> io::Result<()> {
    let mut r = SplitMix(seed.parse().expect("a seed"));
    for _ in 0..count.parse().expect("a count") {
        writeln!(out, "{}", script::line_of(&text(&mut r)))?;
    }
    Ok(())
}

// The kind of an answer: its first word, with the number of a refusal, which sorts by its size.
fn kind(answer: &str) -> String {
    match answer.strip_prefix("refused ") {
        Some(number) => format!("refused {number:>2}"),
        None => answer.split(' ').next().unwrap_or_default().to_string(),
    }
}

fn main() -> io::Result<()> {
    let arguments: Vec<String> = std::env::args().skip(1).collect();
    let words: Vec<&str> = arguments.iter().map(String::as_str).collect();
    let mut out = BufWriter::new(io::stdout().lock());
    match words[..] {
        ["make", seed, count] => make(texts::text, seed, count, &mut out)?,
        ["slipping", seed, count] => make(slipping::text, seed, count, &mut out)?,
        ["fixed"] => fixed::script(&mut out)?,
        ["slips"] => slips::script(&mut out)?,
        ["answer"] => {
            for line in streams::lines() {
                writeln!(out, "{}", answers::answer(&line))?;
            }
        }
        ["count"] => streams::count(streams::lines().map(|line| (kind(&String::from_utf8_lossy(&line)), 1))),
        _ => panic!("options make SEED COUNT, slipping SEED COUNT, fixed, slips, answer or count"),
    }
    out.flush()
}
