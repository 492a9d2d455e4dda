// The answers that the port must give to a script of calls on an engine: what the Rust gives, with the papers' refusals of an instant and a length.

use crate::answers::settings_of;
use crate::config::{Config, DirectionConfig};
use crate::impair::{ArrivalEngine, Decision};
use crate::instants::{float_of, is_instant};
use crate::print::{count, float};
use crate::script;
use crate::widths::LONGEST;

pub struct Answers {
    settings: Config,
    engine: ArrivalEngine,
}

impl Answers {
    pub fn new() -> Self {
        Answers { settings: Config::default(), engine: ArrivalEngine::new(DirectionConfig::default(), 0) }
    }

    pub fn answer(&mut self, line: &[u8]) -> String {
        self.called(line).unwrap_or("bad line".to_string())
    }

    // The answer to a line that has the form of a call.
    fn called(&mut self, line: &[u8]) -> Option<String> {
        if line.starts_with(b"options ") {
            return Some(self.options(&script::text_of(line)?));
        }
        let words: Vec<&str> = std::str::from_utf8(line).ok()?.split(' ').collect();
        match words[..] {
            ["engine", direction, seed] => self.create(direction, seed.parse().ok()?),
            ["d", now, len] => Some(self.decide(float_of(now)?, len.parse().ok()?)),
            ["b", now] => Some(timed("rebind", float_of(now)?, |now| self.engine.should_rebind_now(now))),
            ["k", now] => Some(timed("rst", float_of(now)?, |now| self.engine.rst_now(now))),
            ["h", now] => Some(timed("hold", float_of(now)?, |now| self.engine.hold_now(now))),
            ["o"] => {
                self.engine.stats_inc_overflow();
                Some("overflow".to_string())
            }
            ["s"] => Some(self.stats()),
            _ => None,
        }
    }

    fn options(&mut self, text: &[u8]) -> String {
        let (settings, answer) = match settings_of(text) {
            Ok(settings) => (settings, "taken".to_string()),
            Err(number) => (Config::default(), format!("refused {number}")),
        };
        self.settings = settings;
        answer
    }

    fn create(&mut self, direction: &str, seed: u64) -> Option<String> {
        let settings = match direction {
            "c2s" => &self.settings.c2s,
            "s2c" => &self.settings.s2c,
            _ => return None,
        };
        self.engine = ArrivalEngine::new(settings.clone(), seed);
        Some("created".to_string())
    }

    fn decide(&mut self, now: f64, len: u64) -> String {
        if !is_instant(now) {
            return "refused 21".to_string();
        }
        if len > LONGEST as u64 {
            return "refused 22".to_string();
        }
        match self.engine.decide(now, len as usize) {
            Decision::Drop(reason) => format!("drop {reason}"),
            Decision::Enqueue { due_ms, extra_dup } => format!("enqueue{}{}", float(due_ms), count(extra_dup as u64)),
            Decision::KillRst => "reset".to_string(),
        }
    }

    fn stats(&self) -> String {
        let s = &self.engine.stats;
        let counts = [
            s.received_pkts,
            s.received_bytes,
            s.dropped_random,
            s.dropped_ge,
            s.dropped_mtu,
            s.dropped_blackout,
            s.dropped_overflow,
            s.duplicates,
            s.reorder_hits,
            s.rate_deferred,
            s.nat_rebinds,
        ];
        format!("stats{}", counts.map(count).concat())
    }
}

fn timed(word: &str, now: f64, call: impl FnOnce(f64) -> bool) -> String {
    if is_instant(now) { format!("{word} {}", call(now) as u8) } else { "refused 21".to_string() }
}
