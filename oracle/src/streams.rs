// The lines of standard input, and how many of them are of each kind.

use std::collections::BTreeMap;
use std::io::{self, BufRead};

// Each line without the byte 10 that ends it.
pub fn lines() -> impl Iterator<Item = Vec<u8>> {
    io::stdin().lock().split(b'\n').map(|line| line.expect("the input can be read"))
}

// Says on stderr how many there are of each kind.
pub fn count(kinds: impl Iterator<Item = (String, u64)>) {
    let mut sums: BTreeMap<String, u64> = BTreeMap::new();
    for (kind, number) in kinds {
        *sums.entry(kind).or_default() += number;
    }
    for (kind, number) in sums {
        eprintln!("{kind}: {number}");
    }
}
