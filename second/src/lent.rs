//! A lent buffer: "A finished write changes only the bytes written. A refused
//! one zeros the whole buffer." 10 is told last, so a file is put as far as the
//! buffer goes while it is still being made, and measured to its end.

use crate::numbers::groups_of;
use crate::refusal::{Refusal, BUFFER_TOO_SHORT};

/// The buffer and how long the file in it is so far, written or not.
pub struct Lent<'a> {
    buffer: &'a mut [u8],
    length: usize,
}

impl<'a> Lent<'a> {
    /// A buffer with nothing put yet.
    pub fn new(buffer: &'a mut [u8]) -> Lent<'a> {
        Lent { buffer, length: 0 }
    }

    /// How long the file is so far.
    pub fn length(&self) -> usize {
        self.length
    }

    /// Adds a byte, written where the buffer goes that far.
    #[inline]
    pub fn put_byte(&mut self, byte: u8) {
        if let Some(slot) = self.buffer.get_mut(self.length) {
            *slot = byte;
        }
        self.length += 1;
    }

    /// Adds bytes, writing as far as the buffer goes.
    pub fn put(&mut self, bytes: &[u8]) {
        bytes.iter().for_each(|byte| self.put_byte(*byte));
    }

    /// Adds a mode, a number of one or two bytes: from 128 on the first is the
    /// mode itself, its high bit being set.
    #[inline]
    pub fn put_mode(&mut self, mode: u8) {
        if mode < 0x80 {
            self.put_byte(mode);
        } else {
            self.put(&[mode, 1]);
        }
    }

    /// Adds a tile: how many modes it has, and the modes.
    #[inline]
    pub fn put_tile(&mut self, modes: &[u8]) {
        self.put_byte(modes.len() as u8);
        modes.iter().for_each(|mode| self.put_mode(*mode));
    }

    /// Sets the byte lengths of parts that were put one behind the other before the
    /// first of them, moving up all that was put from there on; part i goes from
    /// `bounds[i]` to `bounds[i + 1]`. Where that no longer fits, the buffer is too
    /// short whatever it holds.
    pub fn put_lengths_before(&mut self, bounds: &[usize]) {
        let mut numbers = Vec::new();
        for part in bounds.windows(2) {
            let (groups, count) = groups_of((part[1] - part[0]) as u64);
            numbers.extend_from_slice(&groups[..count]);
        }
        let count = numbers.len();
        self.length += count;
        if let Some(moved) = self.buffer.get_mut(bounds[0]..self.length) {
            moved.copy_within(..moved.len() - count, count);
            moved[..count].copy_from_slice(&numbers);
        }
    }

    /// The length of the finished file: 10 where the buffer was too short for it.
    pub fn end(&self) -> Result<usize, Refusal> {
        if self.length > self.buffer.len() {
            return Err(Refusal::at(BUFFER_TOO_SHORT, 0));
        }
        Ok(self.length)
    }
}

/// Hands a judged file over: 10 where the buffer is too short for it.
pub fn deliver(file: &[u8], buffer: &mut [u8]) -> Result<usize, Refusal> {
    let Some(head) = buffer.get_mut(..file.len()) else {
        return Err(Refusal::at(BUFFER_TOO_SHORT, 0));
    };
    head.copy_from_slice(file);
    Ok(file.len())
}

/// "A refused one zeros the whole buffer."
pub fn zero_if_refused(answer: Result<usize, Refusal>, buffer: &mut [u8]) -> Result<usize, Refusal> {
    if answer.is_err() {
        buffer.fill(0);
    }
    answer
}
