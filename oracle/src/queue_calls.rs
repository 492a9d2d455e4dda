// Calls on a queue, drawn at random: dues, instants, lengths, and the lines of a script.

use crate::impair::ImpairQueue;
use crate::instants::{beside, bits, within, LAST};
use crate::queue_answers::ROOM;
use crate::sizes::Sizes;
use crate::split_mix::SplitMix;
use crate::widths::{DEFAULT_WIDTH, LONGEST};

// How many dues are kept, so that later ones tie with them.
const RECENT: usize = 8;

// Lines that ask for nothing.
const BAD: [&str; 17] = [
    "",
    "x",
    "queue",
    "queue x",
    "queue 1 ",
    "queue 1 x",
    "queue 1 18446744073709551616",
    "queue 1 64 1",
    "push",
    "push 4014000000000000 0000000000000000 1 0 5",
    "push 4014000000000000 0000000000000000 1 4294967296 5 1",
    "push 4014000000000000 000000000000000G 1 0 5 1",
    "push 4014000000000000 0000000000000000 1 0 5 1 1",
    "release 0",
    "drain ",
    "len 1",
    "dues",
];

// A queue of the source, by which it is known how many copies an instant releases; its copies have no bytes.
pub struct Calls {
    queue: ImpairQueue,
    cap: usize,
    width: usize,
    now: f64,
    recent: Vec<f64>,
    pushes: usize,
    phase: usize,
}

impl Calls {
    // On the queue of capacity 1 and of the default width that there is before one is made.
    pub fn before() -> Self {
        Calls::on(1, DEFAULT_WIDTH)
    }

    fn on(cap: usize, width: usize) -> Self {
        Calls { queue: ImpairQueue::new(cap), cap, width, now: 0.0, recent: vec![0.0], pushes: 50, phase: 0 }
    }

    // The line that makes a queue, and the calls on it. A refused creation gives the queue that there is before one is made.
    pub fn drawn(r: &mut SplitMix) -> (String, Self) {
        let sizes = Sizes::drawn(r, &ROOM, capacity);
        let calls = sizes.judged(&ROOM).map_or_else(|_| Calls::before(), |(cap, width)| Calls::on(cap, width));
        (format!("queue {}", sizes.words()), calls)
    }

    // How many calls the queue gets.
    pub fn count(&self, r: &mut SplitMix) -> usize {
        10 + r.below(30 + 4 * self.cap)
    }

    // The lines of a call, at most `left` of them. Releases at one instant are repeated until none is due.
    pub fn lines(&mut self, r: &mut SplitMix, left: usize) -> Vec<String> {
        if self.phase == 0 {
            self.phase = 1 + r.below(10 + 2 * self.cap);
            self.pushes = r.pick(&[90, 60, 30]);
        }
        self.phase -= 1;
        let line = match r.below(200) {
            0 => r.pick(&BAD).to_string(),
            1 => {
                self.queue.drain_all();
                "drain".to_string()
            }
            2..=9 => "len".to_string(),
            10..=25 => "due".to_string(),
            _ if r.percent(self.pushes) => self.push(r),
            _ if self.queue.len() < left => return self.releases(r),
            _ => "due".to_string(),
        };
        vec![line]
    }

    fn push(&mut self, r: &mut SplitMix) -> String {
        let due = self.due(r);
        self.recent.push(due);
        if self.recent.len() > RECENT {
            self.recent.remove(r.below(RECENT));
        }
        let arrival = within(self.now - step(r));
        let (route, fill) = (r.next(), r.next());
        let route = r.pick(&[0, 1, u64::MAX, route, route, route]);
        let id = r.pick(&[0, 0, 1, 1, u32::MAX]);
        let length = self.length(r);
        if length <= self.width as u64 {
            self.queue.push(due, arrival, route, id, Vec::new());
        }
        format!("push {} {} {route} {id} {length} {fill}", bits(due), bits(arrival))
    }

    // Most are short, since the bytes are made one by one; some are about the width, and some too long.
    fn length(&self, r: &mut SplitMix) -> u64 {
        let (usual, longest) = (DEFAULT_WIDTH as u64, LONGEST as u64);
        match r.below(20) {
            0..=3 => (self.width - 1 + r.below(3)) as u64,
            4 => r.pick(&[0, 1, usual, usual + 1, longest - 1, longest, longest + 1, 16_384, 16_385, 65_536, u64::MAX]),
            5 => r.below(self.width + 1) as u64,
            _ => r.below(100.min(self.width + 1)) as u64,
        }
    }

    // As many lines as copies leave, and one for which none is due.
    fn releases(&mut self, r: &mut SplitMix) -> Vec<String> {
        self.now = self.instant(r);
        let count = self.queue.pop_due(self.now).len();
        vec![format!("release {}", bits(self.now)); count + 1]
    }

    // Most dues are after the last instant by a small step; many tie with one of the last, or are beside it.
    fn due(&self, r: &mut SplitMix) -> f64 {
        let recent = r.pick(&self.recent);
        match r.below(100) {
            0..=29 => recent,
            30..=34 => beside(r, recent),
            35..=40 => r.pick(&[0.0, -0.0]),
            41 => f64::INFINITY,
            42..=43 => f64::NEG_INFINITY,
            44..=46 => r.pick(&[f64::MAX, f64::MIN, LAST, LAST.next_up(), 5e-324, -5e-324, -1.0]),
            47..=52 => self.now - step(r),
            _ => self.now + step(r),
        }
    }

    // Most instants go forward by a small step, or are the due of a copy or beside it; some release all.
    fn instant(&self, r: &mut SplitMix) -> f64 {
        let recent = r.pick(&self.recent);
        let next = self.queue.next_due().unwrap_or(recent);
        within(match r.below(100) {
            0..=24 => recent,
            25..=44 => next,
            45..=54 => beside(r, next),
            55..=57 => 0.0,
            58..=60 => LAST,
            61..=65 => self.now - step(r),
            _ => self.now + step(r),
        })
    }
}

// From 1 to 256: most are small, or near a power of two, where the tree has another shape.
fn capacity(r: &mut SplitMix) -> u64 {
    let drawn = match r.below(20) {
        0..=6 => 1 + r.below(4),
        7..=11 => r.pick(&[15, 16, 17, 31, 32, 33]),
        12..=16 => 5 + r.below(60),
        17 => r.pick(&[63, 64, 65, 127, 128, 129, 255, 256]),
        _ => 65 + r.below(192),
    };
    drawn as u64
}

fn step(r: &mut SplitMix) -> f64 {
    match r.below(4) {
        0 => r.below(4) as f64,
        1 => r.below(1 << 53) as f64 / LAST * 50.0,
        _ => r.below(40) as f64 * 0.25,
    }
}
