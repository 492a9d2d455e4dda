// Calls on an engine, drawn at random: instants, lengths, and the lines of a script.

use crate::config::DirectionConfig;
use crate::instants::{beside, bits, within, LAST};
use crate::split_mix::SplitMix;
use crate::widths::DEFAULT_WIDTH;

// Lines that ask for nothing.
const BAD: [&str; 12] = [
    "", "x", "d", "d 0 0", "d 4014000000000000", "d 4014000000000000 x", "d 401400000000000G 5", "b", "k 40140000000000000", "o ",
    "s 1", "engine c2s x",
];

// Where instants and lengths are drawn for one engine: the edges of its windows, its NAT period, its mtu and the longest packet that is taken.
pub struct Calls {
    edges: Vec<u64>,
    period: u64,
    next_rebind: f64,
    mtu: Option<u64>,
    longest: usize,
    now: f64,
}

impl Calls {
    pub fn new(settings: &DirectionConfig, longest: usize) -> Self {
        let windows = settings.blackouts.iter().chain(settings.tcp_kills.iter().map(|kill| &kill.window));
        Calls {
            edges: windows.flat_map(|window| [window.start_ms, window.end_ms]).collect(),
            period: settings.nat_change_every_ms,
            next_rebind: settings.nat_change_every_ms as f64,
            mtu: settings.mtu.map(|mtu| mtu as u64),
            longest,
            now: 0.0,
        }
    }

    // The line of a call.
    pub fn line(&mut self, r: &mut SplitMix) -> String {
        match r.below(200) {
            0 => r.pick(&BAD).to_string(),
            1..=2 => "s".to_string(),
            3..=5 => "o".to_string(),
            6..=20 => format!("b {}", self.rebind_instant(r)),
            21..=28 => format!("k {}", self.window_instant(r)),
            29..=36 => format!("h {}", self.window_instant(r)),
            _ => format!("d {} {}", self.instant(r), self.length(r)),
        }
    }

    // Goes on to a later instant, where it is not too far ahead.
    pub fn go_on_to(&mut self, instant: f64, ahead: f64) {
        if self.now < instant && instant <= self.now + ahead {
            self.now = instant;
        }
    }

    // The bits of an instant.
    fn instant(&mut self, r: &mut SplitMix) -> String {
        bits(self.drawn(r))
    }

    // The next instant; some in a hundred are out of range.
    pub fn drawn(&mut self, r: &mut SplitMix) -> f64 {
        if r.percent(1) { out_of_range(r) } else { self.in_range(r) }
    }

    // Of a line that has windows often an edge of one of them, or a neighbour of it.
    fn window_instant(&mut self, r: &mut SplitMix) -> String {
        if self.edges.is_empty() || r.percent(50) {
            return self.instant(r);
        }
        let edge = r.pick(&self.edges) as f64;
        bits(within(beside(r, edge)))
    }

    // Of a line that has a period often the next rebind itself, or a neighbour of it.
    pub fn rebind_instant(&mut self, r: &mut SplitMix) -> String {
        let near = self.period > 0 && r.percent(40);
        let instant = if near { within(beside(r, self.next_rebind)) } else { self.drawn(r) };
        if self.period > 0 && instant >= self.next_rebind && instant <= LAST {
            self.next_rebind += self.period as f64;
        }
        bits(instant)
    }

    // Most instants go forward by a small step; of the others half are left again with the next one.
    fn in_range(&mut self, r: &mut SplitMix) -> f64 {
        if r.percent(75) {
            self.now = within(self.now + step(r));
            return self.now;
        }
        let drawn = within(self.jump(r));
        if r.percent(50) {
            self.now = if drawn > LAST / 2.0 { 0.0 } else { drawn };
        }
        drawn
    }

    fn jump(&self, r: &mut SplitMix) -> f64 {
        match r.below(20) {
            0 => 0.0,
            1 => r.pick(&[LAST, LAST - 1.0, LAST.next_down(), LAST * 0.5]),
            2 => fraction(r) * LAST,
            3..=6 => self.now * fraction(r),
            7..=8 => self.now - step(r),
            9 => self.now,
            _ => {
                let edge = self.edge(r);
                beside(r, edge)
            }
        }
    }

    // A window's edge, a multiple of the NAT period, or a whole number.
    fn edge(&self, r: &mut SplitMix) -> f64 {
        if self.period > 0 && (self.edges.is_empty() || r.percent(50)) {
            return ((self.now / self.period as f64).floor() + r.below(3) as f64) * self.period as f64;
        }
        if self.edges.is_empty() {
            return r.below(3000) as f64;
        }
        r.pick(&self.edges) as f64
    }

    // From 0 to the longest that is taken, often the mtu or one more; some in a hundred are longer.
    pub fn length(&self, r: &mut SplitMix) -> u64 {
        let longest = self.longest as u64;
        let any = r.below(self.longest + 1) as u64;
        let near = match self.mtu {
            Some(mtu) if mtu <= longest => mtu - 1 + r.below(3) as u64,
            _ => any,
        };
        match r.below(100) {
            0 => r.pick(&[longest + 1, longest + 1, 16_384, 16_385, 65_536, u64::MAX]),
            1..=25 => r.pick(&[0, 1, 40, 1500, 2047, 2048, 2049, longest - 1, longest]).min(longest),
            26..=45 => near.min(longest),
            46..=60 => any,
            _ => any.min(r.below(DEFAULT_WIDTH + 1) as u64),
        }
    }
}

fn fraction(r: &mut SplitMix) -> f64 {
    r.below(1 << 53) as f64 / LAST
}

fn step(r: &mut SplitMix) -> f64 {
    match r.below(6) {
        0 => 0.0,
        1 => r.pick(&[0.001, 0.5, 1.0, 1.0 / 3.0, 20.0]),
        2 => fraction(r) * 100.0,
        _ => fraction(r) * 3.0,
    }
}

fn out_of_range(r: &mut SplitMix) -> f64 {
    let patterns = [f64::NAN.to_bits(), 0x7ff0_0000_0000_0001, u64::MAX, (-0.0f64).to_bits(), LAST.next_up().to_bits()];
    let ends = [f64::MAX, f64::INFINITY, f64::NEG_INFINITY, -5e-324, -1.0, 1e300].map(f64::to_bits);
    f64::from_bits(r.pick(&[&patterns[..], &ends[..]].concat()))
}
