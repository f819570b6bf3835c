//! A house: a plant, and its sheet where it came as one. Which of them a file is, is found elsewhere (`kinds`).

use super::{Plant, Sheet};

/// A house's plant, and its sheet where it came as one.
#[derive(Clone, Debug)]
pub struct House {
    /// The plant's file, as the library made it of a sheet or accepted it.
    pub bytes: Vec<u8>,
    pub plant: Plant,
    pub sheet: Option<Sheet>,
}

impl House {
    /// How many counts a degree has, which only a sheet says.
    pub fn counts(&self) -> Option<i64> {
        self.sheet.as_ref().map(|sheet| sheet.counts as i64)
    }

    /// The house of a plant's file that the library made or accepted.
    pub fn of(bytes: Vec<u8>, sheet: Option<Sheet>) -> House {
        let plant = accepted(Plant::read(&bytes));
        House { bytes, plant, sheet }
    }
}

/// What is read of a file that the library accepted.
pub fn accepted<T>(read: Option<T>) -> T {
    read.expect("a file that the library accepted is read whole")
}
