//! The ranges of document 01's numbers and of a chain's, for the faults of a text and for the words of a refusal. A file is judged by the library alone.

/// n, the rooms.
pub const MOST_ROOMS: i64 = 4;
/// N, the modes.
pub const MOST_MODES: i64 = 256;
/// r, the counts a degree.
pub const MOST_COUNTS: i64 = 1_000;
pub const MOST_Q: i64 = 10_000;
/// K, the longest pattern.
pub const MOST_LONGEST: i64 = 6;
/// m, the boxes of a chain.
pub const MOST_BOXES: i64 = 8;

/// The most that an edge of R, S or a box of a chain is away from 0, an end of w, an entry of A, and b.
pub const MOST_EDGE: i64 = 1_000_000;
pub const MOST_BAND: i64 = 1_000_000_000;
pub const MOST_A: i64 = 20_000;
pub const MOST_B: i64 = 10_000_000_000;

/// D, the depth, of so many rooms: at most 6, and n·D at most 12.
pub fn most_depth(rooms: i64) -> i64 {
    6.min(12 / rooms)
}
