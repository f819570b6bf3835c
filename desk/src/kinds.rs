//! The kinds of file: all but a plant of form 2 and a table of form 2 or 3 begin with 01, and some bytes are right as two of them. So a kind is a word,
//! or it is found by asking the library for each that may be, and a file that is right as more than one is never taken for one of them.

use crate::causes;
use crate::files::houses::accepted;
use crate::files::numbers::Reader;
use crate::files::{Chain, House, Plant, Sheet, Start, Table};
use crate::library;
use crate::refusals::Refusal;
use crate::text::shown::Shown;
use crate::text::{chains, plants, sheets, tables};

#[derive(Clone, Copy, Debug, PartialEq, Eq)]
pub enum Kind {
    Sheet,
    Plant,
    Table,
    Chain,
    Start,
}

/// The kinds that need no other file, those that are for a house, and of these the ones that a controller is given.
pub const ALONE: [Kind; 2] = [Kind::Sheet, Kind::Plant];
pub const FOR_A_HOUSE: [Kind; 3] = [Kind::Table, Kind::Chain, Kind::Start];
pub const CONTROLS: [Kind; 2] = [Kind::Table, Kind::Start];

impl Kind {
    /// The word of a command and of a text's first line.
    pub fn word(self) -> &'static str {
        match self {
            Kind::Sheet => "sheet",
            Kind::Plant => "plant",
            Kind::Table => "table",
            Kind::Chain => "chain",
            Kind::Start => "start",
        }
    }

    /// The kind in a sentence.
    pub fn words(self) -> &'static str {
        match self {
            Kind::Start => "start file",
            other => other.word(),
        }
    }

    pub fn of(word: &str) -> Option<Kind> {
        [ALONE.as_slice(), &FOR_A_HOUSE].concat().into_iter().find(|kind| kind.word() == word)
    }
}

/// A file as one kind, with the house that it is for where the kind needs one.
#[derive(Clone, Copy)]
pub enum As<'a> {
    Sheet(&'a [u8]),
    Plant(&'a [u8]),
    Table(&'a [u8], &'a House),
    Chain(&'a [u8], &'a House),
    Start(&'a [u8], &'a House),
}

impl<'a> As<'a> {
    /// None where the kind needs a house and there is none, or the other way round.
    pub fn of(kind: Kind, bytes: &'a [u8], house: Option<&'a House>) -> Option<As<'a>> {
        match (kind, house) {
            (Kind::Sheet, None) => Some(As::Sheet(bytes)),
            (Kind::Plant, None) => Some(As::Plant(bytes)),
            (Kind::Table, Some(house)) => Some(As::Table(bytes, house)),
            (Kind::Chain, Some(house)) => Some(As::Chain(bytes, house)),
            (Kind::Start, Some(house)) => Some(As::Start(bytes, house)),
            _ => None,
        }
    }

    /// The library's verdict.
    pub fn verdict(self) -> Result<(), Refusal> {
        match self {
            As::Sheet(bytes) => library::sheet(bytes).map(|_| ()),
            As::Plant(bytes) => library::plant(bytes),
            As::Table(bytes, house) => library::check(&house.bytes, bytes),
            As::Chain(bytes, house) => chain(bytes, house),
            As::Start(bytes, house) => library::start_check(&house.bytes, bytes),
        }
    }

    /// Why it was refused.
    pub fn cause(self, refusal: Refusal) -> String {
        match self {
            As::Sheet(bytes) => causes::sheet(bytes, refusal),
            As::Plant(bytes) => causes::plant(bytes, refusal),
            As::Table(bytes, house) => causes::table(&house.plant, bytes, refusal),
            As::Chain(bytes, house) => causes::chain(&house.plant, bytes, refusal),
            As::Start(bytes, house) => causes::start(&house.plant, bytes, refusal),
        }
    }

    /// The text of a file that was accepted.
    pub fn text(self) -> String {
        let mut shown = Shown::default();
        match self {
            As::Sheet(bytes) => sheets::show(&accepted(Sheet::read(bytes)), &mut shown),
            As::Plant(bytes) => plants::show(&accepted(Plant::read(bytes)), &mut shown),
            As::Table(bytes, house) => tables::show(&accepted(Table::read(bytes, &house.plant)), bytes.len(), house, &mut shown),
            As::Chain(bytes, house) => chains::show(&accepted(Chain::read(bytes, house.plant.rooms.len())), house, &mut shown),
            As::Start(bytes, house) => tables::show_start(&accepted(Start::read(bytes, &house.plant)), house, &mut shown),
        }
        shown.0
    }
}

/// A kind that a file could have been, its refusal as that, and the cause.
#[derive(Clone, Debug, PartialEq, Eq)]
pub struct Reason {
    pub kind: Kind,
    pub refusal: Refusal,
    pub cause: String,
}

/// Why a file is not one of some kinds: right as two of them, or refused as each.
#[derive(Clone, Debug, PartialEq, Eq)]
pub enum NotOne {
    Two(Kind, Kind),
    None(Vec<Reason>),
}

/// A file as the only one of these kinds that the library accepts; of the kinds those count that need a house where there is one, none where there is none.
pub fn only<'a>(kinds: &[Kind], bytes: &'a [u8], house: Option<&'a House>) -> Result<As<'a>, NotOne> {
    let (mut right, mut refused) = (Vec::new(), Vec::new());
    for &kind in kinds {
        let Some(read) = As::of(kind, bytes, house) else { continue };
        match read.verdict() {
            Ok(()) => right.push((kind, read)),
            Err(refusal) => refused.push((kind, read, refusal)),
        }
    }
    match right[..] {
        [(_, read)] => Ok(read),
        [] => Err(NotOne::None(refused.into_iter().map(|(kind, read, refusal)| Reason { kind, refusal, cause: read.cause(refusal) }).collect())),
        [(one, _), (other, _), ..] => Err(NotOne::Two(one, other)),
    }
}

/// The house of a sheet's file or a plant's, whichever it is.
pub fn house(bytes: &[u8]) -> Result<House, NotOne> {
    Ok(match only(&ALONE, bytes, None)? {
        As::Sheet(_) => House::of(accepted(library::sheet(bytes).ok()), Some(accepted(Sheet::read(bytes)))),
        _ => House::of(bytes.to_vec(), None),
    })
}

/// The library's verdict on a chain, and bytes left over, which come before 15 and which no call of the library tells without making all tables.
fn chain(bytes: &[u8], house: &House) -> Result<(), Refusal> {
    let verdict = library::chain(&house.bytes, bytes);
    if verdict.is_err_and(|refusal| refusal.number != 15) {
        return verdict;
    }
    let mut file = Reader::new(bytes);
    accepted(Chain::follow(&mut file, house.plant.rooms.len()));
    match file.is_at_end() {
        true => verdict,
        false => Err(Refusal { number: 3, place: file.place() as u64, step: 0 }),
    }
}
