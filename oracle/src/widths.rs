// The widths of slots in bytes, and the longest packet.

// The width where none is named, and that of a refused creation.
pub const DEFAULT_WIDTH: usize = 2048;

// What refusal 30 lets through.
pub const MIN_WIDTH: usize = 64;
pub const MAX_WIDTH: usize = 9216;

// What refusal 22 lets through where there are no slots.
pub const LONGEST: usize = MAX_WIDTH;
