// What a host lends the port for a capacity and a slot width, and the buffer to which it hands on the bytes of what left.

// All is written to once, here, so that every page is there before a run; no run clears it.
pub struct Memory {
    pub win: Vec<u32>,
    pub free: Vec<u32>,
    pub dues: Vec<f64>,
    pub seqs: Vec<u64>,
    pub arrivals: Vec<f64>,
    pub routes: Vec<u64>,
    pub copy_ids: Vec<u32>,
    pub lengths: Vec<u32>,
    pub store: Vec<u8>,
    pub sent: Vec<u8>,
}

impl Memory {
    pub fn new(cap: usize, width: usize) -> Memory {
        Memory {
            win: vec![1; cap],
            free: vec![1; cap],
            dues: vec![1.0; cap],
            seqs: vec![1; cap],
            arrivals: vec![1.0; cap],
            routes: vec![1; cap],
            copy_ids: vec![1; cap],
            lengths: vec![1; cap],
            store: vec![1; cap * width],
            sent: vec![1; width],
        }
    }
}

// So many bytes for each of the payloads that enter in turns, end to end; no two payloads are the same.
pub fn payloads(count: usize, length: usize) -> Vec<u8> {
    (0..count * length).map(|i| (i / length + i) as u8).collect()
}
