//! What is promised and to whom, in plain words with the file's own numbers, and what is left to the modeller. The sentences are demand 3's (README, "is this
//! table safe for this plant?") and request 2026-03's arrival; the numbers are R, S, the longest patterns and the sample time. Nothing else is claimed.

use super::{Accepted, Files};
use crate::controls::Control;
use crate::files::tables::counted;
use crate::files::{Plant, Side, Sides};
use crate::pictures::chart::minutes;
use crate::pictures::svg::escape;
use crate::units::counts;

/// The promise, to the grower and to the fitter.
pub fn promised(files: &Files, accepted: &Accepted) -> String {
    let every = accepted.house.sheet.as_ref().map_or(String::new(), |sheet| format!(", every {},", minute_words(sheet.time, 1)));
    let (begin, points) = match accepted.control {
        Control::Table(_) => (range(accepted), of_table(accepted)),
        Control::Start(_) => (boxes(accepted), of_start(accepted)),
    };
    let points: String = points.iter().map(|point| format!("<li>{point}</li>\n")).collect();
    format!(
        "<section>\n<h2>What is promised, and to whom</h2>\n<h3>To the grower</h3>\n{begin}\
         <p>Apply at each sample{every} the mode that the controller answers. Then, for as many samples as you like and whatever readings come that the \
         plant’s equation and band allow:</p>\n<ol class=\"numbered\">\n{points}</ol>\n\
         <p>Readings are what is promised about: nothing is said of the temperature between two samples, or away from a probe.</p>\n\
         <h3>To the fitter</h3>\n<p>The promise is for these very bytes: {} and its plant, as listed under Files. Compare sizes and sums before you load \
         them. A controller that answers 65,535 has refused a call: stop it, the readings are not those of this plant.</p>\n</section>\n",
        escape(files.control.name)
    )
}

fn of_table(accepted: &Accepted) -> Vec<String> {
    let longest = accepted.control.tables()[0].longest();
    vec![
        "No call of the controller is refused.".into(),
        never(accepted),
        format!("{} within {}, and there the next tile is chosen.", back(accepted), within(accepted, longest)),
    ]
}

fn of_start(accepted: &Accepted) -> Vec<String> {
    let last = accepted.control.boxes(accepted.house).len() - 1;
    vec![
        "No call of the controller is refused.".into(),
        never(accepted),
        format!(
            "From any reading in R{last} the room has arrived within {}: a tile of R’s own table is chosen, on a reading in R. A room that passes \
             through R in the middle of a pattern has not yet arrived.",
            within(accepted, accepted.control.home(last))
        ),
        format!(
            "From then on: {} within {}, and there the next tile is chosen.",
            back(accepted).replacen("From", "from", 1),
            within(accepted, accepted.control.tables()[0].longest())
        ),
    ]
}

/// Never below or above S.
fn never(accepted: &Accepted) -> String {
    let units = accepted.units;
    let rooms = (1..).zip(&accepted.house.plant.rooms);
    let rooms: Vec<String> =
        rooms.map(|(number, room)| format!("room {number} is never read below {} or above {}", units.value(room.s.lo), units.words(room.s.hi))).collect();
    capital(&format!("{}.", rooms.join(", ")))
}

fn back(accepted: &Accepted) -> String {
    let rooms = if accepted.house.plant.rooms.len() == 1 { "the room is" } else { "all rooms are" };
    format!("From each reading at which a tile is chosen, {rooms} back in R")
}

/// So many samples, and minutes where the sheet gives the sample time.
fn within(accepted: &Accepted, samples: usize) -> String {
    let time = accepted.house.sheet.as_ref().map(|sheet| format!(", which is {}", minute_words(sheet.time, samples)));
    format!("{}{}", counted(samples as u64, "sample"), time.unwrap_or_default())
}

/// So many samples in minutes; "about" where the figure is rounded.
fn minute_words(time: f64, samples: usize) -> String {
    let minutes = minutes(time, samples);
    let about = if minutes.parse() == Ok(time * samples as f64) { "" } else { "about " };
    format!("{about}{minutes} minute{}", if minutes == "1" { "" } else { "s" })
}

/// R and S of each room, in degrees and in counts side by side.
fn range(accepted: &Accepted) -> String {
    let rooms = (1..).zip(&accepted.house.plant.rooms);
    let row = |(number, room): (usize, &crate::files::plants::Bounds)| {
        format!("<tr><td>room {number}</td><td>{}</td><td>{}</td></tr>\n", side(accepted, room.r), side(accepted, room.s))
    };
    let rows: String = rooms.map(row).collect();
    format!(
        "<p>Start the controller on any reading in R, in steps of {}, ends included:</p>\n<div class=\"wide\"><table>\
         <thead><tr><th></th><th>R, every reading</th><th>S, the safety box</th></tr></thead>\n<tbody>\n{rows}</tbody></table></div>\n",
        accepted.units.words(1)
    )
}

/// A side in degrees, and its counts below where these are not the same.
fn side(accepted: &Accepted, side: Side) -> String {
    let units = accepted.units;
    let counts = format!("{} to {} counts", counts(side.lo), counts(side.hi));
    match units.has_degrees() {
        true => format!("{} to {}<small>{counts}</small>", units.value(side.lo), units.words(side.hi)),
        false => counts,
    }
}

/// The boxes of the chain, with the samples that it takes from each.
fn boxes(accepted: &Accepted) -> String {
    let rooms = accepted.house.plant.rooms.len();
    let row = |(index, sides): (usize, Sides)| {
        let cells: String = sides.iter().map(|&sides| format!("<td>{}</td>", side(accepted, sides))).collect();
        let home = within(accepted, accepted.control.home(index)).replace(", which is ", "<small>").to_string();
        let home = if home.contains("<small>") { format!("{home}</small>") } else { home };
        let name = if index == 0 { "R".into() } else { format!("R{index}") };
        format!("<tr><td>{name}</td>{cells}<td>{home}</td></tr>\n")
    };
    let rows: String = accepted.control.boxes(accepted.house).into_iter().enumerate().map(row).collect();
    let heads: String = (1..=rooms).map(|room| format!("<th>room {room}</th>")).collect();
    format!(
        "<p>Start the controller on any reading in one of these boxes, ends included, in steps of {}:</p>\n<div class=\"wide\"><table>\
         <thead><tr><th>box</th>{heads}<th>home in R within</th></tr></thead>\n<tbody>\n{rows}</tbody></table></div>\n",
        accepted.units.words(1)
    )
}

/// What the modeller answers for.
pub fn modeller(accepted: &Accepted) -> String {
    let (whose, bands) = match &accepted.house.sheet {
        Some(sheet) => ("sheet’s", format!("the band: {}", by_room(sheet.rooms.iter().map(|room| room.w), sheet.q))),
        None => ("plant’s", bands(&accepted.house.plant)),
    };
    let mut points = vec![format!(
        "that from one sample to the next the rooms follow the {whose} equation, each reading departing from it by no more than {bands};"
    )];
    if let Some(sheet) = &accepted.house.sheet {
        points.push(format!(
            "that the sheet’s figures are those of the house: {} counts a degree, a sample every {}, {} degrees outside, the rooms’ losses, exchanges and \
             emitters, with time counted in minutes;",
            sheet.counts,
            minute_words(sheet.time, 1),
            format!("{:?}", sheet.outside).replace('-', "−")
        ));
    }
    points.push("that whatever the equation leaves out, weather, doors, people and the step from sample to sample itself, fits in the band.".into());
    let points: String = points.iter().map(|point| format!("<li>{point}</li>\n")).collect();
    format!("<section>\n<h2>What the modeller answers for</h2>\n<ul>\n{points}</ul>\n</section>\n")
}

/// A plant's band, or in form 2 those of its modes, told once for neighbours that have the same.
fn bands(plant: &Plant) -> String {
    let of = |mode: usize| by_room(plant.modes[mode].iter().map(|row| row.w), plant.q);
    if plant.form == 1 {
        return format!("the band: {}", of(0));
    }
    let same = |one: usize, other: usize| plant.modes[one].iter().map(|row| row.w).eq(plant.modes[other].iter().map(|row| row.w));
    let firsts: Vec<usize> = (0..plant.modes.len()).filter(|&mode| mode == 0 || !same(mode - 1, mode)).collect();
    let lasts = firsts[1..].iter().map(|next| next - 1).chain([plant.modes.len() - 1]);
    let stretch = |(&first, last): (&usize, usize)| match last == first {
        true => format!("in mode {first} {}", of(first)),
        false => format!("in modes {first} to {last} {}", of(first)),
    };
    let bands: Vec<String> = firsts.iter().zip(lasts).map(stretch).collect();
    format!("the band of the mode applied: {}", bands.join("; "))
}

/// A band, room by room.
fn by_room(band: impl Iterator<Item = Side>, q: u64) -> String {
    let room = |(number, w): (usize, Side)| format!("room {number} by {} to {} counts", part(w.lo, q), part(w.hi, q));
    (1..).zip(band).map(room).collect::<Vec<_>>().join(", ")
}

/// An end of a band in counts, exactly: in decimals where q has them, else as a fraction.
fn part(end: i64, q: u64) -> String {
    let whole = format!("{:05}", end.unsigned_abs() * (10_000 / q));
    let (before, behind) = whole.split_at(whole.len() - 4);
    let parts = match 10_000 % q {
        0 => format!("{before}.{behind}").trim_end_matches('0').trim_end_matches('.').to_string(),
        _ => format!("{}/{q}", end.abs()),
    };
    format!("{}{parts}", if end < 0 { "−" } else { "" })
}

fn capital(words: &str) -> String {
    let mut letters = words.chars();
    letters.next().map_or(String::new(), |first| first.to_uppercase().chain(letters).collect())
}
