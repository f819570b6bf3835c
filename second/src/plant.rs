//! The plant: "Ranges" and "Plant file: form 1, n, N, q, K, D; for each
//! dimension R lo, R hi, S lo, S hi; for each dimension w lo, w hi; for each
//! mode, for each i, A_i1..A_in, b_i." Request 2026-09: "Plant form 2 holds w lo
//! and w hi for each dimension inside each mode, before its A rows ... a form 1
//! plant reads as one with equal bands." Request 2026-08: "N up to 256."

use crate::band::Band;
use crate::boxes::Box;
use crate::edges::Edges;
use crate::file::{Draft, File};
use crate::lent::{deliver, zero_if_refused};
use crate::refusal::{Refusal, OUT_OF_RANGE};
use crate::{LONGEST_PATTERN, MOST_MODES, MOST_ROOMS};

/// The form with one band for all modes, before the first.
const ONE_BAND: u64 = 1;
/// The form with a band inside each mode.
const BAND_IN_MODE: u64 = 2;

/// "q 1..10,000".
pub const MOST_Q: u64 = 10_000;
/// "Depth D 0..6".
pub const MOST_DEPTH: u64 = 6;
/// "n*D <= 12".
pub const MOST_SPLITS: u64 = 12;
/// "Entries of A within +-20,000".
pub const A_LIMIT: i64 = 20_000;
/// "b within +-10,000,000,000".
pub const B_LIMIT: i64 = 10_000_000_000;

/// A plant as plain values. Nothing about them is promised until they are judged.
#[derive(Clone, Debug, PartialEq, Eq)]
pub struct Plant {
    /// The form it is read from and written in: "a form 2 plant with equal bands
    /// is written back as form 2".
    pub form: u64,
    pub n: u64,
    /// N, the number of modes.
    pub modes: u64,
    pub q: u64,
    /// The longest pattern.
    pub k: u64,
    /// The depth.
    pub d: u64,
    pub edges: Edges,
    /// The band of each mode. Form 1 has one for all: its file holds mode 0's.
    pub bands: Vec<Band>,
    /// Packed in file order: mode u, row i, column j (b_i is column n) stands at
    /// u*n*(n+1) + i*(n+1) + j.
    pub coefficients: Vec<i64>,
}

impl Plant {
    /// All zeros, without any mode.
    pub const ZEROS: Plant = Plant {
        form: 0,
        n: 0,
        modes: 0,
        q: 0,
        k: 0,
        d: 0,
        edges: Edges::ZEROS,
        bands: Vec::new(),
        coefficients: Vec::new(),
    };

    /// Of so many rooms and modes, all else zeros.
    pub fn zeros(n: u64, modes: u64) -> Plant {
        let mut plant = Plant { n, modes, ..Plant::ZEROS };
        plant.bands = vec![Band::ZEROS; plant.mode_count()];
        plant.coefficients = vec![0; plant.mode_count() * plant.mode_numbers()];
        plant
    }

    /// How many rooms, never over the most there can be.
    pub fn rooms(&self) -> usize {
        self.n.min(MOST_ROOMS as u64) as usize
    }

    /// How many modes, never over the most there can be.
    pub fn mode_count(&self) -> usize {
        self.modes.min(MOST_MODES as u64) as usize
    }

    /// How many coefficients a mode has.
    fn mode_numbers(&self) -> usize {
        self.rooms() * (self.rooms() + 1)
    }

    /// The rows of mode u.
    pub fn rows(&self, mode: usize) -> std::slice::ChunksExact<'_, i64> {
        let numbers = self.mode_numbers();
        self.coefficients[mode * numbers..][..numbers].chunks_exact(self.rooms() + 1)
    }

    /// Row i of mode u: its n entries of A, then b_i.
    pub fn row(&self, mode: usize, i: usize) -> &[i64] {
        let n = self.rooms();
        let first = mode * n * (n + 1) + i * (n + 1);
        &self.coefficients[first..first + n + 1]
    }

    /// The box R.
    pub fn r(&self) -> Box {
        self.edges.r(self.rooms())
    }

    /// The box S.
    pub fn s(&self) -> Box {
        self.edges.s(self.rooms())
    }

    /// Whether a band stands before the rows of this mode: form 1's one band
    /// before the first mode, form 2's before each.
    fn band_stands_before(&self, mode: usize) -> bool {
        mode == 0 || self.form == BAND_IN_MODE
    }
}

/// The greatest depth allowed with n rooms: "D 0..6 with n*D <= 12".
pub fn most_depth(n: u64) -> u64 {
    MOST_DEPTH.min(MOST_SPLITS / n)
}

/// A plant's file, judged: 1, 2 and 3 number by number, leftover, 4, 5.
pub fn read_plant(bytes: &[u8]) -> Result<Plant, Refusal> {
    read::<true>(bytes)
}

/// The same judgement with the modes read past, for a call, which looks up no row:
/// the plant is left without them.
pub(crate) fn read_past_modes(bytes: &[u8]) -> Result<Plant, Refusal> {
    read::<false>(bytes)
}

fn read<const KEEP: bool>(bytes: &[u8]) -> Result<Plant, Refusal> {
    let mut file = File::new(bytes);
    let mut plant = Plant::ZEROS;
    plant.form = file.form(&[ONE_BAND, BAND_IN_MODE])?;
    plant.n = file.unsigned_in(1, MOST_ROOMS as u64)?;
    plant.modes = file.unsigned_in(1, MOST_MODES as u64)?;
    plant.q = file.unsigned_in(1, MOST_Q)?;
    plant.k = file.unsigned_in(1, LONGEST_PATTERN as u64)?;
    plant.d = file.unsigned_in(0, most_depth(plant.n))?;
    plant.edges = Edges::read(&mut file, plant.rooms())?;
    let bands = read_modes::<KEEP>(&mut file, &mut plant)?;
    file.end(OUT_OF_RANGE)?;
    plant.edges.judge(plant.rooms())?;
    bands?;
    Ok(plant)
}

/// The bands and rows of all modes, kept or read past: 1 and 3, else the bands'
/// own 5, at the first mode and in it the first dimension, for later.
fn read_modes<const KEEP: bool>(
    file: &mut File,
    plant: &mut Plant,
) -> Result<Result<(), Refusal>, Refusal> {
    let n = plant.rooms();
    let mut rows = [0; MOST_ROOMS * (MOST_ROOMS + 1)];
    let rows = &mut rows[..plant.mode_numbers()];
    if KEEP {
        plant.bands.reserve_exact(plant.mode_count());
        plant.coefficients.reserve_exact(plant.mode_count() * rows.len());
    }
    let mut band = Band::ZEROS;
    let mut wide_enough = Ok(());
    for mode in 0..plant.mode_count() {
        if plant.band_stands_before(mode) {
            band = Band::read(file, n)?;
            wide_enough = wide_enough.and_then(|()| band.judge(mode, n, plant.q));
        }
        for (number, slot) in rows.iter_mut().enumerate() {
            let limit = if number % (n + 1) == n { B_LIMIT } else { A_LIMIT };
            *slot = file.signed_in(-limit, limit)?;
        }
        if KEEP {
            plant.bands.push(band);
            plant.coefficients.extend_from_slice(rows);
        }
    }
    Ok(wide_enough)
}

/// Writes a plant: its values "judged as the file it would be", then 10. What
/// the values hold beyond n and N is ignored, and in form 1 the bands behind
/// mode 0's; what they lack is zeros.
pub fn write_plant(plant: &Plant, buffer: &mut [u8]) -> Result<usize, Refusal> {
    let draft = draft_plant(plant);
    let answer = read_past_modes(draft.bytes()).and_then(|_| deliver(draft.bytes(), buffer));
    zero_if_refused(answer, buffer)
}

/// The file any values would be; where the form, n or N is out of range the
/// judge stops there, so what is drafted behind it does not matter.
fn draft_plant(plant: &Plant) -> Draft {
    let (n, numbers) = (plant.rooms(), plant.mode_numbers());
    let mut draft = Draft::new(plant.form);
    for number in [plant.n, plant.modes, plant.q, plant.k, plant.d] {
        draft.unsigned(number);
    }
    plant.edges.draft(&mut draft, n);
    for mode in 0..plant.mode_count() {
        if plant.band_stands_before(mode) {
            plant.bands.get(mode).unwrap_or(&Band::ZEROS).draft(&mut draft, n);
        }
        for number in mode * numbers..(mode + 1) * numbers {
            draft.signed(plant.coefficients.get(number).copied().unwrap_or(0));
        }
    }
    draft
}
