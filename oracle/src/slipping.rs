// Option texts with one to three options of udp, seldom four, drawn at random: most under tcp, some under udp with kills, and now and then with what changes
// the refusal or takes it away.

use crate::split_mix::SplitMix;
use crate::values::{kill, some_probability, some_time, whole};
use crate::well_formed::{any_option, option, Care};

const KEYS: [&str; 6] = [
    "c2s-nat-change-every-ms", "c2s-reorder", "c2s-duplicate", "s2c-nat-change-every-ms", "s2c-reorder", "s2c-duplicate",
];

pub fn text(r: &mut SplitMix) -> Vec<u8> {
    let tcp = !r.percent(5);
    let mut options = slips(r);
    for other in others(r, tcp) {
        options.insert(r.below(options.len() + 1), other);
    }
    options.concat().into_bytes()
}

// Options under different keys in any order; now and then a 0 takes one of them away again.
fn slips(r: &mut SplitMix) -> Vec<String> {
    let mut left = KEYS.to_vec();
    let keys: Vec<&str> = (0..1 + r.below(3)).map(|_| left.remove(r.below(left.len()))).collect();
    let mut options: Vec<String> = keys.iter().map(|key| slip(r, key)).collect();
    let may_be_zero = keys.iter().find(|key| !key.ends_with("-every-ms"));
    if let (Some(key), true) = (may_be_zero, r.percent(10)) {
        let zero = r.pick(&["0", "+0", "0.0", ".0", "0.", "00000000000000.0"]);
        options.push(option(r, key, zero));
    }
    options
}

// An option with a value above 0, and reorder with the delay that it needs.
fn slip(r: &mut SplitMix, key: &str) -> String {
    let value = if key.ends_with("-every-ms") { whole(r, true) } else { some_probability(r) };
    let own = option(r, key, &value);
    if !key.ends_with("-reorder") {
        return own;
    }
    let delay = some_time(r);
    let needed = option(r, &format!("{key}-delay-ms"), &delay);
    if r.percent(50) { own + &needed } else { needed + &own }
}

// The mode, up to four options that it takes, kills, and now and then one that is often not taken.
fn others(r: &mut SplitMix, tcp: bool) -> Vec<String> {
    let mut options = vec![option(r, "mode", if tcp { "tcp" } else { "udp" })];
    options.extend((0..r.below(5)).map(|_| any_option(r, tcp, Care { careless: 0 })));
    let kills = if tcp { r.percent(10) as usize } else { r.below(3) };
    for _ in 0..kills {
        let (key, value) = (r.pick(&["c2s-kill", "s2c-kill"]), kill(r, true));
        options.push(option(r, key, &value));
    }
    if r.percent(10) {
        options.push(any_option(r, tcp, Care { careless: 100 }));
    }
    options
}
