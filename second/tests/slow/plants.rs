//! A plant's file judged the slow way: its numbers one by one against their
//! ranges, and what is asked of them together when all have been read.

use super::{slow_number, Told};

/// A file and the place of its next number.
struct Numbers<'a> {
    bytes: &'a [u8],
    at: usize,
}

impl Numbers<'_> {
    /// The next number as it is stored, with its place.
    fn stored(&mut self) -> Result<(u64, u64), Told> {
        let place = self.at as u64;
        let (stored, next) = slow_number(self.bytes, self.at).ok_or((1, place, 0))?;
        self.at = next;
        Ok((stored, place))
    }

    fn count(&mut self, least: u64, greatest: u64) -> Result<u64, Told> {
        let (stored, place) = self.stored()?;
        if (least..=greatest).contains(&stored) { Ok(stored) } else { Err((3, place, 0)) }
    }

    fn signed(&mut self, least: i64, greatest: i64) -> Result<i64, Told> {
        let (stored, place) = self.stored()?;
        let half = (stored / 2) as i64;
        let value = if stored % 2 == 0 { half } else { -half - 1 };
        if (least..=greatest).contains(&value) { Ok(value) } else { Err((3, place, 0)) }
    }

    fn pair(&mut self, limit: i64) -> Result<(i64, i64), Told> {
        let lo = self.signed(-limit, limit)?;
        Ok((lo, self.signed(lo, limit)?))
    }

    fn band(&mut self, n: u64) -> Result<Vec<(i64, i64)>, Told> {
        (0..n).map(|_| self.pair(1_000_000_000)).collect()
    }
}

/// What is told of a plant's file; zeros when it is in order.
pub fn slow_plant(bytes: &[u8]) -> Told {
    judge(bytes).map_or_else(|told| told, |()| (0, 0, 0))
}

fn judge(bytes: &[u8]) -> Result<(), Told> {
    let mut file = Numbers { bytes, at: 0 };
    let form = file.stored()?.0;
    if form != 1 && form != 2 {
        return Err((2, 0, 0));
    }
    let n = file.count(1, 4)?;
    let modes = file.count(1, 256)?;
    let q = file.count(1, 10_000)?;
    file.count(1, 6)?;
    file.count(0, if n == 4 { 3 } else if n == 3 { 4 } else { 6 })?;
    let mut outside = vec![];
    for i in 0..n {
        let (r, s) = (file.pair(1_000_000)?, file.pair(1_000_000)?);
        outside.extend((r.0 < s.0 || r.1 > s.1).then_some(i));
    }
    let mut bands = vec![];
    if form == 1 {
        bands.push(file.band(n)?);
    }
    for _ in 0..modes {
        if form == 2 {
            bands.push(file.band(n)?);
        }
        for _ in 0..n {
            for _ in 0..n {
                file.signed(-20_000, 20_000)?;
            }
            file.signed(-10_000_000_000, 10_000_000_000)?;
        }
    }
    if file.at < bytes.len() {
        return Err((3, file.at as u64, 0));
    }
    if let Some(i) = outside.first() {
        return Err((4, *i, 0));
    }
    for (mode, band) in bands.iter().enumerate() {
        if let Some(i) = band.iter().position(|(lo, hi)| hi - lo + 1 < q as i64) {
            return Err((5, mode as u64, i as u64));
        }
    }
    Ok(())
}
