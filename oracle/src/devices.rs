// Calls on a device, and the answers that the port must give to them.
//   devices make SEED COUNT   prints a script of COUNT calls that are drawn from SEED, on many devices one after the other
//   devices widths            prints a fixed script on the slot width
//   devices answer            reads a script and prints its answers
//   devices count             reads answers and says on stderr how many there are of each kind
mod answers;
mod config;
mod copies;
mod creations;
mod device_answers;
mod device_calls;
mod device_fill;
mod device_kinds;
mod device_scripts;
mod device_texts;
mod device_widths;
mod device_words;
mod differences;
mod engine_calls;
mod engine_texts;
mod impair;
mod instants;
mod long_texts;
mod machine;
mod print;
mod refusals;
mod rng;
mod script;
mod sizes;
mod split_mix;
mod stats;
mod streams;
mod tally;
mod texts;
mod values;
mod well_formed;
mod widths;

use device_answers::Answers;
use std::io::{self, BufWriter, Write};

fn main() -> io::Result<()> {
    let arguments: Vec<String> = std::env::args().skip(1).collect();
    let words: Vec<&str> = arguments.iter().map(String::as_str).collect();
    let mut out = BufWriter::new(io::stdout().lock());
    match words[..] {
        ["make", seed, count] => device_scripts::make(seed.parse().expect("a seed"), count.parse().expect("a count"), &mut out)?,
        ["widths"] => {
            for line in device_widths::lines() {
                writeln!(out, "{line}")?;
            }
        }
        ["answer"] => {
            let mut answers = Answers::new();
            for line in streams::lines() {
                writeln!(out, "{}", answers.answer(&line))?;
            }
        }
        ["count"] => streams::count(device_kinds::kinds()),
        _ => panic!("devices make SEED COUNT, widths, answer or count"),
    }
    out.flush()
}
