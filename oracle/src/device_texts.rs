// Option texts for devices: mostly those of engines with a seed, and with delays that end while the device is used.

use crate::engine_texts::{any_delay, text_with};
use crate::split_mix::SplitMix;
use crate::texts;
use crate::values::seed;
use crate::well_formed::option;

fn short_delay(r: &mut SplitMix) -> String {
    let any = format!("{}.{}", r.below(200), r.below(1000));
    let whole = r.below(60).to_string();
    match r.below(8) {
        0 => r.pick(&["0", "1", "5.", ".5", "0.001", "500"]).to_string(),
        1..=3 => any,
        _ => whole,
    }
}

// Some texts are of any kind, most of them refused.
pub fn text(r: &mut SplitMix) -> Vec<u8> {
    if r.percent(8) {
        return texts::text(r);
    }
    let delay = if r.percent(12) { any_delay } else { short_delay };
    let options = text_with(r, delay);
    let value = seed(r, true);
    let seed = option(r, "seed", &value).into_bytes();
    if r.percent(50) { [seed, options].concat() } else { [options, seed].concat() }
}
