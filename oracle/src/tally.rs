// Demand 3's counts, made from the answers of a machine alone, and checked at each report.

use crate::machine::Answer;
use crate::stats::DirectionStats;

#[derive(Default)]
pub struct Tally {
    received: u64,
    duplicates: u64,
    random: u64,
    ge: u64,
    mtu: u64,
    blackout: u64,
    reset: u64,
    overflow: u64,
    released: u64,
    torn: u64,
}

impl Tally {
    pub fn take(&mut self, answer: &Answer) {
        match answer {
            Answer::Drop(reason) => {
                self.received += 1;
                *self.dropped(reason) += 1;
            }
            Answer::Reset { torn } => {
                self.received += 1;
                self.reset += 1;
                self.torn += torn;
            }
            Answer::Enqueue { extra_dup, entered, overflowed, .. } => {
                assert_eq!(1 + *extra_dup as u64, entered + overflowed);
                self.received += 1;
                self.duplicates += *extra_dup as u64;
                self.overflow += overflowed;
            }
            Answer::Released(_) => self.released += 1,
            Answer::Torn(count) => self.torn += count,
            Answer::Report { stats, held, torn } => self.check(stats, *held, *torn),
            Answer::Refused(_) | Answer::NoneDue | Answer::Rebind(_) => {}
        }
    }

    fn dropped(&mut self, reason: &str) -> &mut u64 {
        match reason {
            "random" => &mut self.random,
            "ge" => &mut self.ge,
            "mtu" => &mut self.mtu,
            "blackout" | "kill-hold" => &mut self.blackout,
            _ => panic!("no count for {reason}"),
        }
    }

    // What came is what went or is held, and the report says the same counts.
    fn check(&self, stats: &DirectionStats, held: u64, torn: u64) {
        let dropped = [self.random, self.ge, self.mtu, self.blackout, self.overflow];
        let went = dropped.iter().sum::<u64>() + self.reset + self.released + self.torn;
        assert_eq!(self.received + self.duplicates, went + held, "demand 3's count");
        let s = stats;
        assert_eq!(dropped, [s.dropped_random, s.dropped_ge, s.dropped_mtu, s.dropped_blackout, s.dropped_overflow]);
        assert_eq!([self.received, self.duplicates, self.reset], [s.received_pkts, s.duplicates, s.tcp_rst_kills]);
        assert_eq!([self.released, self.released, self.torn], [s.sent_pkts, s.latency_count, torn]);
    }
}
