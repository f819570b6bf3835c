//! A plant of the largest length, form 2, four rooms and every mode, with a table
//! of the deepest split and the longest patterns, which the checker accepts.

use crate::common::{file, S, U};

pub const ROOMS: usize = 4;
const MODES: usize = second::MOST_MODES;
pub const CENTRE: i64 = 500_000;
pub const Q: i64 = 10_000;

/// Every number has the most bytes that it can have. A mode takes 8,193 times what rooms 1 and 2 have more than rooms 3 and 4, and every room
/// follows alike; so after two samples all rooms stand at the centre, whatever the pattern.
pub fn plant() -> Vec<u8> {
    let (limit, band) = (1_000_000, 500_000_000);
    let mut fields = vec![U(2), U(ROOMS as u64), U(MODES as u64), U(Q as u64), U(second::LONGEST_PATTERN as u64), U(3)];
    for _ in 0..ROOMS {
        fields.extend([CENTRE - 4, CENTRE + 3, -limit, limit].map(S));
    }
    for _ in 0..MODES {
        fields.extend([band, band + Q - 1].repeat(ROOMS).into_iter().map(S));
        fields.extend([8_193, 8_193, -8_193, -8_193, Q * CENTRE - band - Q / 2].repeat(ROOMS).into_iter().map(S));
    }
    file(&fields)
}

/// Every tile has the longest pattern, of the last mode.
pub fn table() -> Vec<u8> {
    [&[1, ROOMS as u8][..], &full_tree(3)].concat()
}

fn full_tree(depth: usize) -> Vec<u8> {
    if depth == 0 {
        let mut tile = vec![U(second::LONGEST_PATTERN as u64)];
        tile.resize(1 + second::LONGEST_PATTERN, U(MODES as u64 - 1));
        return file(&tile);
    }
    [&[0][..], &full_tree(depth - 1).repeat(1 << ROOMS)].concat()
}
