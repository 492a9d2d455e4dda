// Sixteen floats around the edges, as crates/vectors/src/floats.rt has them.

pub const FLOATS: [f64; 16] = [
    0.0,
    -0.0,
    5e-324,
    -5e-324,
    0.1,
    -0.1,
    1.0,
    -1.0,
    9007199254740991.0,
    9007199254740992.0,
    9007199254740994.0,
    f64::MAX,
    f64::MIN,
    f64::INFINITY,
    f64::NEG_INFINITY,
    f64::NAN,
];
