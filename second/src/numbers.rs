//! Numbers: "groups of seven bits, lowest group first, the high bit set on
//! every byte but the last, shortest form only, at most 5 bytes. Signed ones:
//! v >= 0 is stored as 2v, v < 0 as -2v - 1."

use crate::refusal::{Refusal, BROKEN_NUMBER};

/// "At most 5 bytes."
pub const MOST_BYTES: usize = 5;

/// The number that starts at `place`, with the place after it. A place at or
/// beyond the end is a number that ends early. Most numbers of a table are one
/// byte.
#[inline]
pub fn read_unsigned(bytes: &[u8], place: usize) -> Result<(u64, usize), Refusal> {
    match bytes.get(place) {
        Some(byte) if *byte < 0x80 => Ok((u64::from(*byte), place + 1)),
        _ => read_groups(bytes, place),
    }
}

/// The same of a number of any length.
fn read_groups(bytes: &[u8], place: usize) -> Result<(u64, usize), Refusal> {
    let refusal = Refusal::at(BROKEN_NUMBER, place as u64);
    let rest = bytes.get(place..).unwrap_or(&[]);
    let mut number = 0_u64;
    for (group, byte) in rest.iter().copied().take(MOST_BYTES).enumerate() {
        number |= u64::from(byte & 0x7F) << (7 * group);
        if byte & 0x80 == 0 {
            let shortest = group == 0 || byte != 0;
            return if shortest { Ok((number, place + group + 1)) } else { Err(refusal) };
        }
    }
    Err(refusal)
}

/// The signed number that starts at `place`, with the place after it.
#[inline]
pub fn read_signed(bytes: &[u8], place: usize) -> Result<(i64, usize), Refusal> {
    let (stored, next) = read_unsigned(bytes, place)?;
    Ok((signed_of(stored), next))
}

/// The signed number that is stored as this one.
pub fn signed_of(stored: u64) -> i64 {
    let half = (stored / 2) as i64;
    if stored % 2 == 0 { half } else { -half - 1 }
}

/// What a signed number is stored as. Every i64 has a stored u64.
pub fn stored_of(signed: i64) -> u64 {
    if signed >= 0 {
        2 * (signed as u64)
    } else {
        2 * (-(signed + 1) as u64) + 1
    }
}

/// The groups of a number in shortest form, and how many bytes they are. A
/// number of 2^35 and more takes over 5 bytes: a file that holds it is refused.
pub fn groups_of(number: u64) -> ([u8; 10], usize) {
    let mut bytes = [0; 10];
    let mut length = 0;
    let mut rest = number;
    while rest >= 0x80 {
        bytes[length] = (rest as u8 & 0x7F) | 0x80;
        rest >>= 7;
        length += 1;
    }
    bytes[length] = rest as u8;
    (bytes, length + 1)
}
