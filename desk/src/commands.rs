//! What each command does, and what it prints on standard output. Trouble with the call or with a file is an error of one line, told by `main`.
//! Relies on the library for whatever is made or judged. Leaves out the driving of a room (`drives`).

use crate::causes;
use crate::drawings;
use crate::drives;
use crate::files::houses::accepted;
use crate::files::tables::counted;
use crate::files::{Chain, Form, House, Plant, Sides, Start, Table};
use crate::kinds::{self, As, Kind, NotOne, Reason, ALONE, FOR_A_HOUSE};
use crate::library;
use crate::papers;
use crate::progress;
use crate::refusals::Refusal;
use crate::search::Search;
use crate::text::{self, tables::summary};
use std::io::{ErrorKind, Write};

pub const USAGE: &str = "\
usage: hoachulim write TEXT FILE                    a sheet, plant or chain of its text
       hoachulim show [KIND] FILE [HOUSE]           the text of a file; a table, chain or start file needs its house, which is a sheet or a plant
       hoachulim sheet SHEET PLANT                  the plant of a sheet
       hoachulim make PLANT TABLE [FORM]            the table of a plant
       hoachulim relay PLANT TABLE FORM OUT         a table in another form of the same tree: 1 as 2, and 2 as 1; not the tables of a start file
       hoachulim check PLANT TABLE                  whether a table is safe for a plant
       hoachulim drive PLANT TABLE X..              the controller's answers to readings
       hoachulim drive PLANT TABLE any COUNT SEED   the same for a room that does what the plant allows
       hoachulim make start PLANT CHAIN START [FORM], check start PLANT START, drive start PLANT START ..   the same with start files
       hoachulim list [FORM] < PLANT, list start PLANT START, check_table PLANT TABLE, check_table start PLANT START   the proved programs
       hoachulim picture [KIND] HOUSE FILE OUT.svg                 the tiles of a table, or the chain of a start file and a run home
       hoachulim picture-run [KIND] HOUSE FILE OUT.svg COUNT SEED  a run as a chart
       hoachulim release [KIND] HOUSE FILE OUT.html                the page of a release
         FORM is 1, boxes split along all sides, as where none is said, 2, the same with the lengths of subtrees, or 3, along the longest side alone;
         HOUSE is a sheet or a plant, FILE its table or start file, KIND `table` or `start` where it has to be said;
         `--degrees R` behind the words of a plant gives its counts a degree";

/// What came of a command that was called rightly and could read its files.
#[derive(Clone, Copy, Debug, PartialEq, Eq)]
pub enum Outcome {
    Done,
    Refused,
}

/// The outcome, or what was wrong with the call or a file.
pub type Ran = Result<Outcome, String>;

pub fn run(words: &[&str], out: &mut dyn Write) -> Ran {
    if let Some(ran) = drawings::run(words, out) {
        return ran;
    }
    match *words {
        ["write", text, file] => write(text, file, out),
        ["show", kind, file] if Kind::of(kind).is_some() => show(Kind::of(kind), file, None, out),
        ["show", file] => show(None, file, None, out),
        ["show", file, house] => show(None, file, Some(house), out),
        ["show", kind, file, house] if Kind::of(kind).is_some() => show(Kind::of(kind), file, Some(house), out),
        ["sheet", sheet, plant] => sheet_to_plant(sheet, plant, out),
        ["make", "start", plant, chain, start, ref form @ ..] => start_make(plant, chain, start, form_of(form)?, out),
        ["make", plant, table, ref form @ ..] => make(plant, table, form_of(form)?, out),
        ["relay", plant, table, form, path] => relay(plant, table, form_of(&[form])?, path, out),
        ["check", plant, table] => check(Kind::Table, plant, table, out),
        ["check", "start", plant, start] => check(Kind::Start, plant, start, out),
        ["drive", "start", plant, start, ref rest @ ..] if !rest.is_empty() => drives::drive(Kind::Start, plant, start, rest, out),
        ["drive", plant, table, ref rest @ ..] if !rest.is_empty() => drives::drive(Kind::Table, plant, table, rest, out),
        _ => Err(USAGE.into()),
    }
}

/// The form that is asked for, in digits, 1 where none is; whether there is such a form is the library's to say.
fn form_of(words: &[&str]) -> Result<u64, String> {
    let number = match *words {
        [] => Some(Form::default().number()),
        [word] if word.bytes().all(|byte| byte.is_ascii_digit()) => word.parse().ok(),
        _ => None,
    };
    number.ok_or_else(|| USAGE.into())
}

/// A line on standard output. Who closed it wants no more, and is told nothing.
pub fn say(out: &mut dyn Write, words: &str) -> Result<(), String> {
    writeln!(out, "{words}").map_err(|error| match error.kind() {
        ErrorKind::BrokenPipe => String::new(),
        _ => format!("standard output: {error}"),
    })
}

/// A refusal: the line of all programs, then its cause.
pub fn refused(out: &mut dyn Write, refusal: Refusal, cause: &str) -> Ran {
    say(out, &format!("{refusal}\n{cause}"))?;
    Ok(Outcome::Refused)
}

fn done(out: &mut dyn Write, path: &str, bytes: &[u8], words: &str) -> Ran {
    papers::write(path, bytes)?;
    say(out, &format!("done: {words}"))?;
    Ok(Outcome::Done)
}

/// The house of a plant's file, where the library accepts it; else its refusal is told, and there is none.
pub fn plant_at(path: &str, out: &mut dyn Write) -> Result<Option<House>, String> {
    let bytes = papers::read(path)?;
    match library::plant(&bytes) {
        Ok(()) => Ok(Some(House::of(bytes, None))),
        Err(refusal) => {
            refused(out, refusal, &format!("the plant, {}", causes::plant(&bytes, refusal)))?;
            Ok(None)
        }
    }
}

/// The house of a sheet's file or a plant's, where it is one of them; else that is told.
fn house_at(path: &str, out: &mut dyn Write) -> Result<Option<House>, String> {
    let bytes = papers::read(path)?;
    match kinds::house(&bytes) {
        Ok(house) => Ok(Some(house)),
        Err(NotOne::Two(..)) => Err(format!("{path} is right as a sheet and as a plant: make its plant first")),
        Err(NotOne::None(reasons)) => {
            say(out, &format!("{path} is no house:"))?;
            refused_as(&reasons, out)?;
            Ok(None)
        }
    }
}

/// The file of a text, which the library has to accept first. A chain is judged when a start file is made of it, since only a plant says what R and S are.
fn write(text: &str, path: &str, out: &mut dyn Write) -> Ran {
    if text == path {
        return Err(format!("{path}: the file would stand in place of its text"));
    }
    let said = match text::read(&papers::read(text)?) {
        Ok(said) => said,
        Err(fault) => {
            say(out, &format!("refused {text}, {fault}"))?;
            return Ok(Outcome::Refused);
        }
    };
    let bytes = said.write();
    let file = As::of(said.kind(), &bytes, None);
    match file.map(|file| (file, file.verdict())) {
        Some((file, Err(refusal))) => refused(out, refusal, &file.cause(refusal)),
        _ => done(out, path, &bytes, &format!("a {} of {}", said.kind().word(), counted(bytes.len() as u64, "byte"))),
    }
}

/// A file's text; its kind is the one that was said, or the only one that the library accepts.
fn show(kind: Option<Kind>, path: &str, house: Option<&str>, out: &mut dyn Write) -> Ran {
    let bytes = papers::read(path)?;
    let is_for_a_house = house.is_some();
    let house = house.map(|house| house_at(house, out)).transpose()?.flatten();
    if is_for_a_house && house.is_none() {
        return Ok(Outcome::Refused);
    }
    let kinds = match kind {
        Some(kind) => vec![kind],
        None if is_for_a_house => FOR_A_HOUSE.to_vec(),
        None => ALONE.to_vec(),
    };
    match kinds::only(&kinds, &bytes, house.as_ref()) {
        Ok(read) => say(out, read.text().trim_end()).map(|()| Outcome::Done),
        Err(NotOne::None(reasons)) if reasons.is_empty() => Err(USAGE.into()),
        Err(NotOne::None(reasons)) => refused_as(&reasons, out),
        Err(NotOne::Two(one, other)) => {
            let (one, other) = (one.word(), other.word());
            Err(format!("{path} is right as a {one} and as a {other}: say which, `show {one} {path} ..` or `show {other} {path} ..`"))
        }
    }
}

/// What the library says of a file as each kind that it could have been.
pub fn refused_as(reasons: &[Reason], out: &mut dyn Write) -> Ran {
    for Reason { kind, refusal, cause } in reasons {
        if reasons.len() > 1 {
            say(out, &format!("as a {}:", kind.words()))?;
        }
        refused(out, *refusal, cause)?;
    }
    Ok(Outcome::Refused)
}

fn sheet_to_plant(sheet: &str, path: &str, out: &mut dyn Write) -> Ran {
    let bytes = papers::read(sheet)?;
    match library::sheet(&bytes) {
        Err(refusal) => refused(out, refusal, &causes::sheet(&bytes, refusal)),
        Ok(made) => {
            let plant = accepted(Plant::read(&made));
            let (rooms, modes) = (counted(plant.rooms.len() as u64, "room"), counted(plant.modes.len() as u64, "mode"));
            done(out, path, &made, &format!("{rooms}, {modes}, {}", counted(made.len() as u64, "byte")))
        }
    }
}

fn make(plant: &str, path: &str, form: u64, out: &mut dyn Write) -> Ran {
    let bytes = papers::read(plant)?;
    if let Err(refusal) = library::plant(&bytes) {
        return refused(out, refusal, &causes::plant(&bytes, refusal));
    }
    let plant = accepted(Plant::read(&bytes));
    match progress::searching("making the table", &search(&plant, &[], form), || library::make(&bytes, form)) {
        Err(refusal) => refused(out, refusal, &causes::made(&plant, form, refusal)),
        Ok(made) => done(out, path, &made, &summary(&accepted(Table::read(&made, &plant)), made.len())),
    }
}

/// The search beside the library's; a form that is not known the library refuses before any search.
fn search<'a>(plant: &'a Plant, chain: &[Sides], form: u64) -> Search<'a> {
    Search::of(plant, chain, Form::of(form).unwrap_or_default())
}

/// A table in another form, its tiles and patterns as they are, so that nothing is searched for.
fn relay(plant: &str, table: &str, form: u64, path: &str, out: &mut dyn Write) -> Ran {
    let bytes = papers::read(table)?;
    let Some(house) = plant_at(plant, out)? else {
        return Ok(Outcome::Refused);
    };
    match library::relay(&house.bytes, &bytes, form) {
        Err(refusal) => refused(out, refusal, &causes::relaid(&house.plant, &bytes, form, refusal)),
        Ok(relaid) => done(out, path, &relaid, &summary(&accepted(Table::read(&relaid, &house.plant)), relaid.len())),
    }
}

/// A table, or a start file, for a plant.
fn check(kind: Kind, plant: &str, path: &str, out: &mut dyn Write) -> Ran {
    let bytes = papers::read(path)?;
    let Some(house) = plant_at(plant, out)? else {
        return Ok(Outcome::Refused);
    };
    let read = if kind == Kind::Start { As::Start(&bytes, &house) } else { As::Table(&bytes, &house) };
    match read.verdict() {
        Err(refusal) => refused(out, refusal, &read.cause(refusal)),
        Ok(()) => {
            say(out, "accepted")?;
            Ok(Outcome::Done)
        }
    }
}

fn start_make(plant: &str, chain: &str, path: &str, form: u64, out: &mut dyn Write) -> Ran {
    let chain = papers::read(chain)?;
    let Some(house) = plant_at(plant, out)? else {
        return Ok(Outcome::Refused);
    };
    let sound = library::chain(&house.bytes, &chain).ok().and_then(|()| Chain::read(&chain, house.plant.rooms.len()));
    let search = search(&house.plant, &sound.map_or(Vec::new(), |chain| chain.boxes), form);
    match progress::searching("making the tables", &search, || library::start_make(&house.bytes, &chain, form)) {
        Err(refusal) => refused(out, refusal, &causes::start_made(&house.plant, &chain, form, refusal)),
        Ok(made) => done(out, path, &made, &start_summary(&accepted(Start::read(&made, &house.plant)), made.len())),
    }
}

/// Tables, tiles, and within how many samples a room is home from the largest box (request 2026-03). All tables have one form, as they were made.
fn start_summary(start: &Start, length: usize) -> String {
    let tiles: usize = start.tables.iter().map(|inner| inner.table.tiles.len()).sum();
    let samples: usize = start.tables[1..].iter().map(|inner| inner.table.longest()).sum();
    let [tables, tiles, samples, bytes] = [(start.tables.len(), "table"), (tiles, "tile"), (samples, "sample"), (length, "byte")]
        .map(|(count, word)| counted(count as u64, word));
    format!("{}{tables}, {tiles}, home within {samples}, {bytes}", start.tables[0].table.form.words())
}
