// Calls on a device, drawn at random: the lines of a script.

use crate::config::DirectionConfig;
use crate::engine_calls;
use crate::instants::{beside, bits, within, LAST};
use crate::machine::Machine;
use crate::split_mix::SplitMix;
use crate::widths::{DEFAULT_WIDTH, LONGEST};

// Lines that ask for nothing.
const BAD: [&str; 22] = [
    "",
    "x",
    "create",
    "create c2s 1",
    "create x 1 1",
    "create c2s x 1",
    "create c2s 1 1 ",
    "create c2s 1 1 x",
    "create c2s 1 1 -64",
    "create c2s 1 1 18446744073709551616",
    "create c2s 1 1 64 1",
    "a",
    "a 4014000000000000 5 1",
    "a 4014000000000000 x 1 1",
    "a 401400000000000G 5 1 1",
    "a 4014000000000000 5 1 1 1",
    "r",
    "r 0",
    "b 40140000000000000",
    "t ",
    "p 1",
    "options 0",
];

// How far ahead of the clock a due may be for which the clock is put on.
const AHEAD: f64 = 1000.0;

// Instants and lengths are drawn as for the device's engine. Phases with many arrivals and phases with many releases take turns.
pub struct Calls {
    times: engine_calls::Calls,
    width: usize,
    arrivals: usize,
    phase: usize,
    // The instant of the last release, and how often it is to be repeated.
    release: f64,
    repeats: usize,
}

impl Calls {
    pub fn new(settings: &DirectionConfig, width: usize) -> Self {
        Calls { times: engine_calls::Calls::new(settings, width), width, arrivals: 50, phase: 0, release: 0.0, repeats: 0 }
    }

    // The line of a call on this device.
    pub fn line(&mut self, r: &mut SplitMix, device: &Machine) -> String {
        if self.repeats > 0 {
            self.repeats -= 1;
            return format!("r {}", bits(self.release));
        }
        if self.phase == 0 {
            self.phase = 5 + r.below(40);
            self.arrivals = r.pick(&[95, 80, 50, 20]);
        }
        self.phase -= 1;
        match r.below(200) {
            0 => r.pick(&BAD).to_string(),
            1..=2 => "t".to_string(),
            3..=5 => "p".to_string(),
            6..=17 => format!("b {}", self.times.rebind_instant(r)),
            _ if r.percent(self.arrivals) => self.arrive(r),
            _ => self.releases(r, device),
        }
    }

    fn arrive(&mut self, r: &mut SplitMix) -> String {
        let (any_route, any_fill) = (r.next(), r.next());
        let small = r.below(100) as u64;
        let route = r.pick(&[0, 1, u64::MAX, any_route, small, small, small]);
        let fill = r.pick(&[any_fill, small, small, small]);
        format!("a {} {} {route} {fill}", bits(self.times.drawn(r)), self.length(r))
    }

    // Often about the slot width, and at times about the default width or the greatest.
    fn length(&self, r: &mut SplitMix) -> u64 {
        match r.below(100) {
            0..=11 => (self.width - 2 + r.below(5)) as u64,
            12..=14 => r.pick(&[DEFAULT_WIDTH, LONGEST]) as u64 - 1 + r.below(3) as u64,
            _ => self.times.length(r),
        }
    }

    // One release, or as many at one instant as copies are due, and then often one for which none is due.
    fn releases(&mut self, r: &mut SplitMix, device: &Machine) -> String {
        self.release = self.release_instant(r, device.next_due());
        let due = device.due_at(self.release);
        self.repeats = r.pick(&[0, due / 2, due.saturating_sub(1), due]);
        format!("r {}", bits(self.release))
    }

    // Often the next due itself, or a neighbour of it; some release all.
    fn release_instant(&mut self, r: &mut SplitMix, next_due: Option<f64>) -> f64 {
        match (r.below(40), next_due) {
            (0, _) => LAST,
            (1..=20, Some(due)) => {
                let instant = within(beside(r, due));
                self.times.go_on_to(instant, AHEAD);
                instant
            }
            _ => self.times.drawn(r),
        }
    }
}
