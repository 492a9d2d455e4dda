// The answers that the port must give to a script of calls on devices: what the plain machine gives.

use crate::answers::{settings_of, taken};
use crate::config::Config;
use crate::copies::bytes;
use crate::creations::{width_of, Room};
use crate::device_words::said;
use crate::impair::direction_seed;
use crate::instants::float_of;
use crate::machine::{Answer, Machine};
use crate::script;
use crate::tally::Tally;

// What the port's program lends.
pub const ROOM: Room = Room { entries: 1_024, store_bytes: 2_097_152 };

pub struct Answers {
    pub settings: Config,
    pub machine: Machine,
    tally: Tally,
}

impl Answers {
    // Before a device is made there is the one that a refused creation gives.
    pub fn new() -> Self {
        Answers { settings: Config::default(), machine: Machine::refused(), tally: Tally::default() }
    }

    pub fn answer(&mut self, line: &[u8]) -> String {
        self.called(line).unwrap_or("bad line".to_string())
    }

    // The answer to a line that has the form of a call.
    fn called(&mut self, line: &[u8]) -> Option<String> {
        if line.starts_with(b"options ") {
            return Some(self.options(&script::text_of(line)?));
        }
        let words: Vec<&str> = std::str::from_utf8(line).ok()?.split(' ').collect();
        if let ["create", direction, salt, capacity, behind @ ..] = words.as_slice() {
            return self.create(direction, salt.parse().ok()?, capacity.parse().ok()?, width_of(behind)?);
        }
        let answer = self.on_machine(&words)?;
        self.tally.take(&answer);
        Some(said(&answer))
    }

    fn options(&mut self, text: &[u8]) -> String {
        let (settings, answer) = match settings_of(text) {
            Ok(settings) => {
                let answer = taken(&settings);
                (settings, answer)
            }
            Err(number) => (Config::default(), format!("refused {number}")),
        };
        self.settings = settings;
        answer
    }

    fn create(&mut self, direction: &str, salt: u64, capacity: u64, width: u64) -> Option<String> {
        let settings = match direction {
            "c2s" => &self.settings.c2s,
            "s2c" => &self.settings.s2c,
            _ => return None,
        };
        let seed = direction_seed(self.settings.seed, salt);
        let (machine, answer) = match ROOM.judged(capacity, width) {
            Ok((capacity, width)) => (Machine::new(settings.clone(), seed, capacity, width), "created".to_string()),
            Err(number) => (Machine::refused(), format!("refused {number}")),
        };
        self.machine = machine;
        self.tally = Tally::default();
        Some(answer)
    }

    fn on_machine(&mut self, words: &[&str]) -> Option<Answer> {
        let machine = &mut self.machine;
        Some(match *words {
            ["a", now, len, route, fill] => {
                let (now, len, route, fill) = (float_of(now)?, len.parse().ok()?, route.parse().ok()?, fill.parse().ok()?);
                machine.arrive(now, &bytes(len, fill), route)
            }
            ["r", now] => machine.release(float_of(now)?),
            ["b", now] => machine.rebind(float_of(now)?),
            ["t"] => machine.teardown(),
            ["p"] => machine.report(),
            _ => return None,
        })
    }
}
