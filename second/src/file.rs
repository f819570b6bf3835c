//! A file, read or drafted number by number in order: "Files are judged
//! number by number in order, 1 before the others at the same number"; "A
//! number's place is its first byte, that of leftover bytes the first of
//! them".

use crate::numbers::{groups_of, read_signed, read_unsigned, stored_of};
use crate::refusal::{Refusal, BROKEN_NUMBER, FORM_NOT_KNOWN, OUT_OF_RANGE};

/// Bytes under judgement and the place of the next number in them. A file may
/// stand inside another: its places are then those of the outer one, which
/// `bytes` holds up to this file's end.
#[derive(Clone, Copy)]
pub struct File<'a> {
    bytes: &'a [u8],
    first: usize,
    place: usize,
}

impl<'a> File<'a> {
    /// A file at its first byte.
    pub fn new(bytes: &'a [u8]) -> File<'a> {
        File { bytes, first: 0, place: 0 }
    }

    /// The file of this many bytes that stands here, which is thereby passed;
    /// None where it passes the end.
    pub fn inner(&mut self, length: u64) -> Option<File<'a>> {
        let first = self.place;
        let end = self.place_after(length)?;
        self.place = end;
        Some(File { bytes: &self.bytes[..end], first, place: first })
    }

    /// Passes this many bytes; None where they pass the end.
    pub fn pass(&mut self, length: u64) -> Option<()> {
        self.place = self.place_after(length)?;
        Some(())
    }

    /// The place behind so many bytes from here on. The file's own end is one.
    fn place_after(&self, length: u64) -> Option<usize> {
        let end = self.place.checked_add(usize::try_from(length).ok()?)?;
        (end <= self.bytes.len()).then_some(end)
    }

    /// The place of its first byte, 0 unless it stands inside another.
    pub fn first(&self) -> u64 {
        self.first as u64
    }

    /// Its bytes, without those of a file around it.
    pub fn own_bytes(&self) -> &'a [u8] {
        &self.bytes[self.first..]
    }

    /// The place of the next number.
    pub fn place(&self) -> u64 {
        self.place as u64
    }

    /// The next number, whatever it is: refused with 1 alone.
    #[inline]
    pub fn unsigned(&mut self) -> Result<u64, Refusal> {
        let (number, next) = read_unsigned(self.bytes, self.place)?;
        self.place = next;
        Ok(number)
    }

    /// The next number, which must lie in least ..= greatest: 1, then 3.
    pub fn unsigned_in(&mut self, least: u64, greatest: u64) -> Result<u64, Refusal> {
        let place = self.place();
        let number = self.unsigned()?;
        if number < least || number > greatest {
            return Err(Refusal::at(OUT_OF_RANGE, place));
        }
        Ok(number)
    }

    /// The next signed number, which must lie in least ..= greatest: 1, then 3.
    #[inline]
    pub fn signed_in(&mut self, least: i64, greatest: i64) -> Result<i64, Refusal> {
        let place = self.place();
        let (number, next) = read_signed(self.bytes, self.place)?;
        self.place = next;
        if number < least || number > greatest {
            return Err(Refusal::at(OUT_OF_RANGE, place));
        }
        Ok(number)
    }

    /// The form, which must be one of those known: refused with 1, then 2, at
    /// its first byte.
    pub fn form(&mut self, known: &[u64]) -> Result<u64, Refusal> {
        let place = self.place();
        let form = self.unsigned()?;
        if !known.contains(&form) {
            return Err(Refusal::at(FORM_NOT_KNOWN, place));
        }
        Ok(form)
    }

    /// The next float, "8 bytes, low byte first": refused with 1 where it ends early.
    pub fn float(&mut self) -> Result<f64, Refusal> {
        let rest = self.bytes.get(self.place..).unwrap_or(&[]);
        let Some(eight) = rest.first_chunk::<8>() else {
            return Err(Refusal::at(BROKEN_NUMBER, self.place()));
        };
        self.place += 8;
        Ok(f64::from_le_bytes(*eight))
    }

    /// Nothing may be left over: else this refusal number at the first such byte.
    pub fn end(&self, number: u8) -> Result<(), Refusal> {
        self.end_or(Refusal::at(number, self.place()))
    }

    /// Nothing may be left over: else this refusal.
    pub fn end_or(&self, refusal: Refusal) -> Result<(), Refusal> {
        if self.place < self.bytes.len() { Err(refusal) } else { Ok(()) }
    }
}

/// Room that most drafts never outgrow.
const USUAL_DRAFT: usize = 1_024;

/// "The file it would be": values written out before they are judged, so a
/// number in it may be out of range or over 5 bytes.
pub struct Draft {
    bytes: Vec<u8>,
}

impl Draft {
    /// A draft holding the form alone.
    pub fn new(form: u64) -> Draft {
        let mut draft = Draft { bytes: Vec::with_capacity(USUAL_DRAFT) };
        draft.unsigned(form);
        draft
    }

    /// Adds a number.
    pub fn unsigned(&mut self, number: u64) {
        let (groups, length) = groups_of(number);
        self.bytes.extend_from_slice(&groups[..length]);
    }

    /// Adds a signed number.
    pub fn signed(&mut self, number: i64) {
        self.unsigned(stored_of(number));
    }

    /// Adds a float, its sign bit and all.
    pub fn float(&mut self, float: f64) {
        self.bytes.extend_from_slice(&float.to_le_bytes());
    }

    /// The bytes so far.
    pub fn bytes(&self) -> &[u8] {
        &self.bytes
    }
}
