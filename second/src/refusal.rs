//! A refusal: the table "What each number says", with what document 02's
//! requests change in it and add to it. A refusal has a number, a place and a
//! step; "a place or step not named is 0".

/// A number or float ends early, is over 5 bytes, or not shortest.
pub const BROKEN_NUMBER: u8 = 1;
/// Form is not known; a maker may be told one that is not.
pub const FORM_NOT_KNOWN: u8 = 2;
/// Plant or sheet number out of range, lo > hi, emitter kind over 2, or bytes
/// left over; "also for m over 8, an edge out of range, bytes left over, or a
/// byte length that passes the end or, in the checker, leaves bytes after its
/// table".
pub const OUT_OF_RANGE: u8 = 3;
/// R not in S.
pub const R_NOT_IN_S: u8 = 4;
/// Band too narrow; "5's place is the mode, its step the dimension".
pub const BAND_TOO_NARROW: u8 = 5;
/// Table: n differs, node over K, mode not below N, a split too deep or not possible, bytes left over;
/// "a length that differs from the child's ... in the checker", and in a call "the
/// first whose child would end past the file".
pub const TABLE_RULE: u8 = 6;
/// An image leaves S.
pub const IMAGE_LEAVES_S: u8 = 7;
/// Last image not in R.
pub const LAST_NOT_IN_R: u8 = 8;
/// No table; of a start file, "the first index without a table".
pub const NO_TABLE: u8 = 9;
/// Buffer too short.
pub const BUFFER_TOO_SHORT: u8 = 10;
/// Reading outside R (idle) or S (running); with a start file "11 when idle
/// now means outside Rm".
pub const READING_OUTSIDE: u8 = 11;
/// State cannot be; "12 also for an index over m, or not 0 when idle".
pub const STATE_CANNOT_BE: u8 = 12;
/// Sheet float not finite, time <= 0, or loss, exchange or p below 0.
pub const SHEET_FLOAT: u8 = 13;
/// Sheet result not finite or outside the plant's range.
pub const SHEET_RESULT: u8 = 14;
/// "A box that does not hold the one before or is not in S, place the first
/// index at fault."
pub const BOX_AT_FAULT: u8 = 15;

/// What is told instead of an answer.
#[derive(Clone, Copy, Debug, PartialEq, Eq)]
pub struct Refusal {
    /// The row of the paper's table.
    pub number: u8,
    /// What the row's "Place" column names, else 0.
    pub place: u64,
    /// The step of a tile's pattern, from 1, in rows 7 and 8; the dimension in
    /// row 5; else 0.
    pub step: u64,
}

impl Refusal {
    /// A refusal with a place and no step.
    pub const fn at(number: u8, place: u64) -> Refusal {
        Refusal { number, place, step: 0 }
    }

    /// A refusal with a place and a step.
    pub const fn at_step(number: u8, place: u64, step: u64) -> Refusal {
        Refusal { number, place, step }
    }

    /// The row's words.
    pub fn words(&self) -> &'static str {
        row_words(self.number)
    }
}

/// The words of the table's row with this number.
pub fn row_words(number: u8) -> &'static str {
    match number {
        0 => "done",
        BROKEN_NUMBER => "a number or float ends early, is over 5 bytes, or not shortest",
        FORM_NOT_KNOWN => "form is not known",
        OUT_OF_RANGE => {
            "plant or sheet number out of range, lo > hi, emitter kind over 2, or bytes left over"
        }
        R_NOT_IN_S => "R not in S",
        BAND_TOO_NARROW => "band too narrow",
        TABLE_RULE => {
            "table: n differs, node over K, mode not below N, \
             a split too deep or not possible, bytes left over"
        }
        IMAGE_LEAVES_S => "an image leaves S",
        LAST_NOT_IN_R => "last image not in R",
        NO_TABLE => "no table",
        BUFFER_TOO_SHORT => "buffer too short",
        READING_OUTSIDE => "reading outside R (idle) or S (running)",
        STATE_CANNOT_BE => "state cannot be",
        SHEET_FLOAT => "sheet float not finite, time \u{2264} 0, or loss, exchange or p below 0",
        SHEET_RESULT => "sheet result not finite or outside the plant's range",
        BOX_AT_FAULT => "a box that does not hold the one before or is not in S",
        _ => "no such number",
    }
}
