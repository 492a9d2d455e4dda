// The answers that the port must give to a script of calls on a queue: what the Rust gives, with the papers' refusals of a capacity, a width, a memory and a
// length.
// The port releases one copy a call and `pop_due` all that are due. So releases at one instant are answered from one call of `pop_due`, and the script must
// repeat them, with no other call between, until none is due.

use crate::copies::{bytes, released};
use crate::creations::{width_of, Room};
use crate::impair::{ImpairQueue, Queued};
use crate::instants::float_of;
use crate::print::float;
use crate::widths::DEFAULT_WIDTH;
use std::collections::VecDeque;

// What the port's program lends.
pub const ROOM: Room = Room { entries: 256, store_bytes: 524_288 };

pub struct Answers {
    queue: ImpairQueue,
    width: usize,
    // The instant of releases of which none has answered that none is due, and the copies that are still to be told.
    releases: Option<(u64, VecDeque<Queued>)>,
}

impl Answers {
    pub fn new() -> Self {
        Answers { queue: ImpairQueue::new(1), width: DEFAULT_WIDTH, releases: None }
    }

    pub fn answer(&mut self, line: &[u8]) -> String {
        self.called(line).unwrap_or("bad line".to_string())
    }

    // The answer to a line that has the form of a call.
    fn called(&mut self, line: &[u8]) -> Option<String> {
        let words: Vec<&str> = std::str::from_utf8(line).ok()?.split(' ').collect();
        match words[..] {
            ["queue", cap, ref behind @ ..] => {
                let (cap, width) = (cap.parse().ok()?, width_of(behind)?);
                Some(self.create(cap, width))
            }
            ["push", due, arrival, route, id, len, fill] => {
                let (due_ms, arrival_ms) = (float_of(due)?, float_of(arrival)?);
                let (route, copy_id) = (route.parse().ok()?, id.parse().ok()?);
                let data = bytes(len.parse().ok()?, fill.parse().ok()?);
                Some(self.push(due_ms, arrival_ms, route, copy_id, data))
            }
            ["release", now] => {
                let now = float_of(now)?;
                Some(self.release(now))
            }
            ["due"] => Some(self.whole().next_due().map_or("empty".to_string(), |due| format!("due{}", float(due)))),
            ["drain"] => Some(format!("drained {}", self.whole().drain_all().len())),
            ["len"] => {
                let queue = self.whole();
                Some(format!("len {} {}", queue.len(), queue.is_empty() as u8))
            }
            _ => None,
        }
    }

    // The queue, where no release is left to be told.
    fn whole(&mut self) -> &mut ImpairQueue {
        assert!(self.releases.is_none(), "releases that stop before none is due");
        &mut self.queue
    }

    // A refused creation gives a queue of capacity 1 and of the default width.
    fn create(&mut self, cap: u64, width: u64) -> String {
        self.whole();
        let judged = ROOM.judged(cap, width);
        let (cap, width) = judged.unwrap_or((1, DEFAULT_WIDTH));
        self.queue = ImpairQueue::new(cap);
        self.width = width;
        judged.map_or_else(|number| format!("refused {number}"), |_| "created".to_string())
    }

    // A packet that is longer than a slot is refused before it is known whether the queue is full.
    fn push(&mut self, due_ms: f64, arrival_ms: f64, route: u64, copy_id: u32, data: Vec<u8>) -> String {
        let width = self.width;
        let queue = self.whole();
        if data.len() > width {
            return "refused 22".to_string();
        }
        match queue.push(due_ms, arrival_ms, route, copy_id, data) {
            Some(seq) => format!("entered {seq}"),
            None => "refused 28".to_string(),
        }
    }

    fn release(&mut self, now: f64) -> String {
        let (at, mut copies) = match self.releases.take() {
            Some(begun) => begun,
            None => (now.to_bits(), self.queue.pop_due(now).into()),
        };
        assert!(at == now.to_bits(), "releases that stop before none is due");
        let Some(copy) = copies.pop_front() else { return "none".to_string() };
        self.releases = Some((at, copies));
        released(&copy)
    }
}
