// Answers of replay, and what the program summary must show of them.
//   summaries script              prints a script of scenarios and of calls on three devices: one that nothing comes to, one with every kind of drop, one with all else
//   summaries edges               prints answer lines around the edges
//   summaries make SEED COUNT     prints COUNT answer lines that are drawn from SEED
//   summaries answer REFERENCE    reads answer lines and prints what must be shown; REFERENCE is docs/REFERENCE.md, whose table says why a number is refused
//   summaries back                reads what is shown of taken scenarios and prints the script lines that give their arguments as option texts
mod floats;
mod instants;
mod print;
mod script;
mod split_mix;
mod stats;
mod streams;
mod summary_lines;
mod summary_report;
mod summary_scenario;

use std::io::{self, BufWriter, Write};

fn main() -> io::Result<()> {
    let arguments: Vec<String> = std::env::args().skip(1).collect();
    let words: Vec<&str> = arguments.iter().map(String::as_str).collect();
    let mut out = BufWriter::new(io::stdout().lock());
    match words[..] {
        ["script"] => summary_lines::script(&mut out)?,
        ["edges"] => summary_lines::edges(&mut out)?,
        ["make", seed, count] => summary_lines::make(seed.parse().expect("a seed"), count.parse().expect("a count"), &mut out)?,
        ["answer", reference] => {
            let reference = std::fs::read_to_string(reference)?;
            for (i, line) in streams::lines().enumerate() {
                write!(out, "{}", shown(i + 1, &String::from_utf8_lossy(&line), &reference))?;
            }
        }
        ["back"] => write!(out, "{}", summary_scenario::option_lines(&io::read_to_string(io::stdin())?))?,
        _ => panic!("summaries script, edges, make SEED COUNT, answer REFERENCE or back"),
    }
    out.flush()
}

fn shown(number: usize, line: &str, reference: &str) -> String {
    let (word, rest) = line.split_once(' ').unwrap_or((line, ""));
    match word {
        "report" => match summary_report::report(rest) {
            Some(text) => format!("line {number}, report\n{text}\n"),
            None => format!("line {number} is not a report that replay gives\n\n"),
        },
        "taken" => format!("line {number}, taken:\n{}\n", summary_scenario::arguments(rest)),
        "refused" => format!("line {number}, refused {rest}: {} (docs/REFERENCE.md, Refusals)\n\n", reason(rest, reference)),
        _ if line == "bad line" => format!("line {number} of the script is no call (docs/REFERENCE.md, Scripts)\n\n"),
        _ => String::new(),
    }
}

// The second column of the number's row.
fn reason<'a>(number: &str, reference: &'a str) -> &'a str {
    let start = format!("| {number} | ");
    reference.lines().find_map(|row| row.strip_prefix(&start)).and_then(|rest| rest.split(" | ").next()).unwrap_or("")
}
