//! The text forms of files, both ways: lines of words and numbers in document 01's names. Reading a text and showing what was read gives its canonical
//! form; showing a file and reading that gives the file, byte for byte. Order is fixed, so that every fault can say what was expected.
//! Relies on `files` for the values. Leaves out the judging of a whole file, which is the library's.

pub mod chains;
pub mod lines;
pub mod plants;
pub mod sheets;
pub mod shown;
pub mod tables;
pub mod values;

use crate::files::{Chain, Plant, Sheet};
use crate::kinds::Kind;
use lines::{Fault, Lines};

/// What a text says.
#[derive(Clone, Debug, PartialEq)]
pub enum Said {
    Sheet(Sheet),
    Plant(Plant),
    Chain(Chain),
}

impl Said {
    pub fn kind(&self) -> Kind {
        match self {
            Said::Sheet(_) => Kind::Sheet,
            Said::Plant(_) => Kind::Plant,
            Said::Chain(_) => Kind::Chain,
        }
    }

    /// The file's bytes, not judged.
    pub fn write(&self) -> Vec<u8> {
        match self {
            Said::Sheet(sheet) => sheet.write(),
            Said::Plant(plant) => plant.write(),
            Said::Chain(chain) => chain.write(),
        }
    }
}

/// What a text says; its first line names its kind.
pub fn read(text: &[u8]) -> Result<Said, Fault> {
    let mut lines = Lines::of(text)?;
    let wanted = "`sheet`, `plant` or `chain`";
    let mut line = lines.next(wanted)?;
    let kind = line.word(wanted, |word| Kind::of(word).filter(|kind| [Kind::Sheet, Kind::Plant, Kind::Chain].contains(kind)))?;
    let form = match kind {
        Kind::Plant => plants::form(&mut line)?,
        _ => line.words("form 1").map(|()| 1)?,
    };
    line.end()?;
    let said = match kind {
        Kind::Sheet => Said::Sheet(sheets::read(&mut lines)?),
        Kind::Plant => Said::Plant(plants::read(&mut lines, form)?),
        _ => Said::Chain(chains::read(&mut lines)?),
    };
    lines.end()?;
    Ok(said)
}
