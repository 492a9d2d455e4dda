// The parts of a line, as crates/output prints them.

pub fn count(n: u64) -> String {
    format!(" {n}")
}

pub fn hex(n: u64) -> String {
    format!(" {n:016x}")
}

pub fn float(x: f64) -> String {
    if x.is_nan() { " nan".to_string() } else { hex(x.to_bits()) }
}
