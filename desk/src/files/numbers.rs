//! Numbers and floats of a file, read one after the other, and written. A reader may be asked for what stands at a place: it ends there, and notes the
//! cause for which a file is refused at that place. What stands before it the library has found right, so nothing here has to be judged.

use super::boxes::Side;

/// A file's bytes, read from the start on.
pub struct Reader<'a> {
    bytes: &'a [u8],
    at: usize,
    asked: Option<usize>,
    noted: Option<String>,
}

impl<'a> Reader<'a> {
    /// A reader of a file that was accepted.
    pub fn new(bytes: &'a [u8]) -> Self {
        Reader { bytes, at: 0, asked: None, noted: None }
    }

    /// A reader of a file that was refused at a place.
    pub fn asked(bytes: &'a [u8], place: u64) -> Self {
        Reader { bytes, at: 0, asked: usize::try_from(place).ok(), noted: None }
    }

    /// The place of the next byte.
    pub fn place(&self) -> usize {
        self.at
    }

    /// Whether every byte is read.
    pub fn is_at_end(&self) -> bool {
        self.at == self.bytes.len()
    }

    /// How many bytes are left.
    pub fn left(&self) -> usize {
        self.bytes.len() - self.at
    }

    /// A reader of what is still to come, asked for nothing.
    pub fn ahead(&self) -> Reader<'a> {
        Reader { bytes: self.bytes, at: self.at, asked: None, noted: None }
    }

    /// What was noted at the asked place.
    pub fn noted(self) -> Option<String> {
        self.noted
    }

    /// The next `length` bytes by themselves, read by `by`; the places are this file's. None where there are not so many, or where `by` ended early.
    pub fn within<T>(&mut self, length: usize, by: impl FnOnce(&mut Reader<'a>) -> Option<T>) -> Option<T> {
        let end = self.at.checked_add(length).filter(|&end| end <= self.bytes.len())?;
        let mut inner = Reader { bytes: &self.bytes[..end], at: self.at, asked: self.asked, noted: None };
        let value = by(&mut inner);
        self.at = inner.at;
        self.noted = inner.noted;
        value
    }

    /// The next number; `name` says what it is, `cause` what is wrong with a value of it.
    pub fn number(&mut self, name: impl Fn() -> String, cause: impl FnOnce(u64) -> String) -> Option<u64> {
        let (asked, value) = (self.asked == Some(self.at), number(&self.bytes[self.at..]));
        if asked {
            self.noted = Some(match &value {
                Ok((value, _)) => cause(*value),
                Err(broken) => format!("{} {broken}", name()),
            });
            return None;
        }
        let (value, length) = value.ok()?;
        self.at += length;
        Some(value)
    }

    /// The next signed number.
    pub fn signed(&mut self, name: impl Fn() -> String, cause: impl FnOnce(i64) -> String) -> Option<i64> {
        self.number(name, |stored| cause(signed_of(stored))).map(signed_of)
    }

    /// The next float.
    pub fn float(&mut self, name: impl Fn() -> String, cause: impl FnOnce(f64) -> String) -> Option<f64> {
        let value = self.bytes[self.at..].first_chunk().map(|&bytes| f64::from_le_bytes(bytes));
        if self.asked == Some(self.at) {
            self.noted = Some(match value {
                Some(value) => cause(value),
                None => format!("{} ends early: a float has 8 bytes, {} are left", name(), self.left()),
            });
            return None;
        }
        self.at += value.map_or(0, |_| 8);
        value
    }
}

/// A number with the count of its bytes, or how it is broken.
fn number(bytes: &[u8]) -> Result<(u64, usize), &'static str> {
    let mut value = 0;
    for (group, &byte) in bytes.iter().take(5).enumerate() {
        value |= u64::from(byte & 0x7F) << (7 * group);
        match byte {
            0 if group > 0 => return Err("is not in shortest form: its last byte is 00"),
            0x00..=0x7F => return Ok((value, group + 1)),
            _ => (),
        }
    }
    Err(if bytes.len() < 5 { "ends early" } else { "is over 5 bytes" })
}

fn signed_of(stored: u64) -> i64 {
    let half = (stored / 2) as i64;
    if stored & 1 == 0 { half } else { -half - 1 }
}

/// How many bytes a number takes.
pub fn size(value: u64) -> usize {
    (1..).find(|bytes| value >> (7 * bytes) == 0).unwrap_or(5)
}

/// A file's bytes, written from the start on.
#[derive(Default)]
pub struct Writer(pub Vec<u8>);

impl Writer {
    pub fn number(&mut self, mut value: u64) {
        while value >= 0x80 {
            self.0.push(value as u8 | 0x80);
            value >>= 7;
        }
        self.0.push(value as u8);
    }

    pub fn signed(&mut self, value: i64) {
        self.number(if value >= 0 { 2 * value as u64 } else { 2 * (-(value + 1)) as u64 + 1 });
    }

    /// Both ends of each side.
    pub fn sides(&mut self, sides: impl IntoIterator<Item = Side>) {
        for side in sides {
            self.signed(side.lo);
            self.signed(side.hi);
        }
    }

    pub fn float(&mut self, value: f64) {
        self.0.extend(value.to_le_bytes());
    }
}
