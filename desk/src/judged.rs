//! A house and its control file as the library judged them, and what is drawn of them. Relies on `kinds` for what a file is.

use crate::controls::Control;
use crate::courses::{course, extreme, Sample};
use crate::files::{House, Sides};
use crate::kinds::{self, As, Kind, NotOne, Reason, CONTROLS};
use crate::library::{Reading, State};
use crate::pictures::{chain, tiles, Chart};
use crate::refusals::Refusal;
use crate::release::{self, Accepted, Files};
use crate::runs::Draws;
use crate::units::Units;

/// Files that the library accepted.
pub struct Judged<'a> {
    pub files: Files<'a>,
    pub house: House,
    pub control: Control,
    pub units: Units,
}

/// Why there is nothing to draw.
pub enum Not {
    /// A file is right as two kinds: trouble with the call, which has to say which.
    Both(String),
    /// The file was refused, as each kind that it could have been; the house is there where it is the control file that was refused.
    Refused(Option<Box<House>>, Vec<Reason>),
}

impl<'a> Judged<'a> {
    /// The files judged; `degrees` are the counts a degree of a house that is a plant.
    pub fn read(files: Files<'a>, said: Option<Kind>, degrees: Option<u64>) -> Result<Judged<'a>, Not> {
        let house = kinds::house(files.house.bytes).map_err(|not| match not {
            NotOne::Two(..) => Not::Both(format!("{} is right as a sheet and as a plant: make its plant first", files.house.name)),
            NotOne::None(reasons) => Not::Refused(None, reasons),
        })?;
        let units = Units::of(house.sheet.as_ref().map(|sheet| sheet.counts).or(degrees));
        let kinds = said.map_or(CONTROLS.to_vec(), |kind| vec![kind]);
        let control = kinds::only(&kinds, files.control.bytes, Some(&house)).map(|read| match read {
            As::Start(bytes, house) => Control::start(house, bytes),
            _ => Control::table(&house, files.control.bytes),
        });
        match control {
            Ok(control) => Ok(Judged { files, house, control, units }),
            Err(NotOne::Two(..)) => {
                Err(Not::Both(format!("{} is right as a table and as a start file: say `table` or `start` before the files", files.control.name)))
            }
            Err(NotOne::None(reasons)) => Err(Not::Refused(Some(Box::new(house)), reasons)),
        }
    }

    /// The tiles of a table, or the chain of a start file with a run home.
    pub fn picture(&self) -> Result<String, Refusal> {
        match &self.control {
            Control::Table(table) => Ok(tiles::picture(&self.house, table, self.units)),
            Control::Start(_) => Ok(chain::picture(&self.chart(&self.control.boxes(&self.house), &self.extreme()?))),
        }
    }

    /// A run of a room that does what the plant allows, from anywhere in the largest box.
    pub fn run(&self, count: usize, seed: u64) -> Result<String, Refusal> {
        let boxes = self.control.boxes(&self.house);
        let mut draws = Draws(seed);
        let first = draws.reading(&boxes[boxes.len() - 1]);
        let samples = course(&self.house.plant, first, count, &|state, x| self.call(state, x), |sides| draws.reading(sides))?;
        Ok(self.chart(&boxes, &samples).picture())
    }

    /// The release page.
    pub fn page(&self) -> Result<String, Refusal> {
        let samples = self.extreme()?;
        Ok(release::accepted(&self.files, &Accepted { house: &self.house, control: &self.control, samples: &samples, units: self.units }))
    }

    fn chart<'b>(&'b self, boxes: &'b [Sides], samples: &'b [Sample]) -> Chart<'b> {
        Chart { house: &self.house, boxes, samples, units: self.units }
    }

    /// The run of extreme readings that is drawn.
    pub fn extreme(&self) -> Result<Vec<Sample>, Refusal> {
        extreme(&self.house, &self.control, &|state, x| self.call(state, x))
    }

    /// A call of the proved controller.
    fn call(&self, state: State, x: Reading) -> Result<(u64, State), Refusal> {
        self.control.controller(self.files.control.bytes).call(&self.house.bytes, state, x)
    }
}
