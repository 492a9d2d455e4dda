// The plain machine of document 01, over the source's engine and accountant.

use crate::config::DirectionConfig;
use crate::impair::{ArrivalEngine, Decision, Queued, SendAccountant};
use crate::instants::is_instant;
use crate::stats::DirectionStats;
use crate::widths::DEFAULT_WIDTH;

pub enum Answer {
    Refused(u32),
    Drop(&'static str),
    Reset { torn: u64 },
    Enqueue { due_ms: f64, extra_dup: bool, entered: u64, overflowed: u64 },
    Released(Queued),
    NoneDue,
    Rebind(bool),
    Torn(u64),
    Report { stats: DirectionStats, held: u64, torn: u64 },
}

// The held copies stand in the order in which they entered.
pub struct Machine {
    engine: ArrivalEngine,
    held: Vec<Queued>,
    next_seq: u64,
    accounts: SendAccountant,
    torn: u64,
    capacity: usize,
    width: usize,
}

impl Machine {
    pub fn new(settings: DirectionConfig, seed: u64, capacity: usize, width: usize) -> Self {
        let (engine, accounts) = (ArrivalEngine::new(settings, seed), SendAccountant::default());
        Machine { engine, held: Vec::new(), next_seq: 0, accounts, torn: 0, capacity, width }
    }

    // The machine that a refused creation gives.
    pub fn refused() -> Self {
        Machine::new(DirectionConfig::default(), 0, 1, DEFAULT_WIDTH)
    }

    // The length of the longest packet that is taken.
    pub fn width(&self) -> usize {
        self.width
    }

    pub fn arrive(&mut self, now: f64, bytes: &[u8], route: u64) -> Answer {
        if !is_instant(now) {
            return Answer::Refused(21);
        }
        if bytes.len() > self.width {
            return Answer::Refused(22);
        }
        match self.engine.decide(now, bytes.len()) {
            Decision::Drop(reason) => Answer::Drop(reason),
            Decision::KillRst => {
                self.accounts.tcp_rst_kills += 1;
                Answer::Reset { torn: self.tear() }
            }
            Decision::Enqueue { due_ms, extra_dup } => {
                let copies = 1 + extra_dup as u32;
                let entered = (0..copies).filter(|&copy_id| self.enter(due_ms, now, route, copy_id, bytes)).count() as u64;
                Answer::Enqueue { due_ms, extra_dup, entered, overflowed: copies as u64 - entered }
            }
        }
    }

    // A copy enters with the next seq, or is counted as overflow.
    fn enter(&mut self, due_ms: f64, arrival_ms: f64, route: u64, copy_id: u32, bytes: &[u8]) -> bool {
        if self.held.len() == self.capacity {
            self.engine.stats_inc_overflow();
            return false;
        }
        self.held.push(Queued { due_ms, seq: self.next_seq, arrival_ms, route, copy_id, data: bytes.to_vec() });
        self.next_seq += 1;
        true
    }

    pub fn release(&mut self, now: f64) -> Answer {
        if !is_instant(now) {
            return Answer::Refused(21);
        }
        match self.least() {
            Some(place) if self.held[place].due_ms <= now => {
                let copy = self.held.remove(place);
                self.accounts.on_send(copy.data.len(), now - copy.arrival_ms);
                Answer::Released(copy)
            }
            _ => Answer::NoneDue,
        }
    }

    // The place of the held copy that is the least by (due, seq); as dues, -0 and 0 are equal.
    fn least(&self) -> Option<usize> {
        let is_before = |a: &Queued, b: &Queued| a.due_ms < b.due_ms || a.due_ms == b.due_ms && a.seq < b.seq;
        (0..self.held.len()).reduce(|best, place| if is_before(&self.held[place], &self.held[best]) { place } else { best })
    }

    // The due of that copy.
    pub fn next_due(&self) -> Option<f64> {
        self.least().map(|place| self.held[place].due_ms)
    }

    // How many held copies are due at an instant.
    pub fn due_at(&self, now: f64) -> usize {
        self.held.iter().filter(|copy| copy.due_ms <= now).count()
    }

    pub fn rebind(&mut self, now: f64) -> Answer {
        if is_instant(now) { Answer::Rebind(self.engine.should_rebind_now(now)) } else { Answer::Refused(21) }
    }

    pub fn teardown(&mut self) -> Answer {
        Answer::Torn(self.tear())
    }

    // Moves all held copies to torn, and says how many they were.
    fn tear(&mut self) -> u64 {
        let count = self.held.len() as u64;
        self.held.clear();
        self.torn += count;
        count
    }

    pub fn report(&self) -> Answer {
        let mut stats = self.engine.stats.clone();
        self.accounts.merge_into(&mut stats);
        Answer::Report { stats, held: self.held.len() as u64, torn: self.torn }
    }
}
