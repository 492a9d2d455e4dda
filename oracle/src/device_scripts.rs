// Scripts for devices: each scenario is an option text, a device and calls on it.

use crate::config::DirectionConfig;
use crate::device_answers::{Answers, ROOM};
use crate::device_calls::Calls;
use crate::sizes::Sizes;
use crate::split_mix::SplitMix;
use crate::{device_fill, device_texts, script};
use std::io::{self, Write};

// How many calls come before the first device is made.
const BEFORE: usize = 10;
// More lines than a scenario has in which a great device fills up.
const FILLED: usize = 3000;

// Each line is also answered here, so that the calls are drawn by what the device holds.
struct Script<'a, W> {
    answers: Answers,
    out: &'a mut W,
}

// Prints scenarios, until there are so many calls.
pub fn make(seed: u64, count: usize, out: &mut impl Write) -> io::Result<()> {
    let mut r = SplitMix(seed);
    let mut script = Script { answers: Answers::new(), out };
    let mut left = count.saturating_sub(BEFORE);
    script.calls(&mut r, &DirectionConfig::default(), count - left)?;
    while left > 0 {
        let count = if r.below(150) == 0 && left > FILLED { script.filled(&mut r)? } else { script.scenario(&mut r, left)? };
        left -= count;
    }
    Ok(())
}

impl<W: Write> Script<'_, W> {
    fn line(&mut self, line: &str) -> io::Result<()> {
        self.answers.answer(line.as_bytes());
        writeln!(self.out, "{line}")
    }

    // A scenario of at most so many calls, and how many it has. Some devices are made of the text of the one before.
    fn scenario(&mut self, r: &mut SplitMix, most: usize) -> io::Result<usize> {
        let count = length(r).min(most);
        if r.percent(90) {
            let text = device_texts::text(r);
            self.line(&script::line_of(&text))?;
        }
        let direction = r.pick(&["c2s", "s2c"]);
        let any = r.next();
        let salt = r.pick(&[0, 1, 2, u64::MAX, any, any, any, any]);
        let sizes = Sizes::drawn(r, &ROOM, capacity);
        self.line(&format!("create {direction} {salt} {}", sizes.words()))?;
        let settings = &self.answers.settings;
        let own = if direction == "c2s" { settings.c2s.clone() } else { settings.s2c.clone() };
        self.calls(r, &own, count)?;
        Ok(count)
    }

    // The scenario in which a great device fills up, and how many calls it has; its first two lines are none of them.
    fn filled(&mut self, r: &mut SplitMix) -> io::Result<usize> {
        let lines = device_fill::lines(r);
        for line in &lines {
            self.line(line)?;
        }
        Ok(lines.len() - 2)
    }

    // So many calls; the last one asks for the report.
    fn calls(&mut self, r: &mut SplitMix, settings: &DirectionConfig, count: usize) -> io::Result<()> {
        let mut calls = Calls::new(settings, self.answers.machine.width());
        for _ in 1..count {
            let line = calls.line(r, &self.answers.machine);
            self.line(&line)?;
        }
        self.line("p")
    }
}

// From 20 to 200 calls, more often few.
fn length(r: &mut SplitMix) -> usize {
    let span = r.pick(&[41, 41, 181]);
    20 + r.below(span)
}

// Most are small, so that the device overflows.
fn capacity(r: &mut SplitMix) -> u64 {
    match r.below(20) {
        0..=11 => 1 + r.below(8) as u64,
        12..=13 => r.pick(&[15, 16, 17, 31, 32, 33, 63, 64, 65]),
        14..=17 => 1 + r.below(1024) as u64,
        _ => 1024,
    }
}
