//! A refusal as the library tells it, with the words of its row (docs/REFUSALS.md, which `tools/words` holds this page to).
//! Leaves out the cause among those of the row (`causes`).

use std::fmt;

/// Number, place and step of a refusal; a place or step that a row does not name is 0.
#[derive(Clone, Copy, Debug, PartialEq, Eq)]
pub struct Refusal {
    pub number: u64,
    pub place: u64,
    pub step: u64,
}

/// The line that every program prints: number, place, step and the row's words.
impl fmt::Display for Refusal {
    fn fmt(&self, f: &mut fmt::Formatter) -> fmt::Result {
        write!(f, "refused {} {} {}: {}", self.number, self.place, self.step, row(self.number))
    }
}

/// The words of the row with this number.
pub fn row(number: u64) -> &'static str {
    match number {
        1 => "a number or float ends early, is over 5 bytes, or not shortest",
        2 => "form is not known",
        3 => "plant or sheet number out of range, lo > hi, emitter kind over 2, or bytes left over",
        4 => "R not in S",
        5 => "band too narrow",
        6 => "table: n differs, node over K, mode not below N, a split too deep or not possible, bytes left over",
        7 => "an image leaves S",
        8 => "last image not in R",
        9 => "no table",
        10 => "buffer too short",
        11 => "reading outside R (idle) or S (running)",
        12 => "state cannot be",
        13 => "sheet float not finite, time ≤ 0, or loss, exchange or p below 0",
        14 => "sheet result not finite or outside the plant's range",
        15 => "a box that does not hold the one before or is not in S",
        _ => "no such number",
    }
}
