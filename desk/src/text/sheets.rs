//! A sheet as text. Its edges are shown in degrees, in counts where one count has no decimal of a degree.

use super::lines::{Fault, Line, Lines};
use super::plants::{bounds, count, limits, read_band, show_band, show_bounds, show_limits, COUNTS};
use super::shown::Shown;
use super::values::{float, float_words, Sign};
use crate::files::ranges::{MOST_COUNTS, MOST_ROOMS};
use crate::files::sheets::{Emitter, Room};
use crate::files::Sheet;

/// The sheet that a text says, behind its first line.
pub fn read(lines: &mut Lines) -> Result<Sheet, Fault> {
    let rooms = count(lines, "rooms", 1, MOST_ROOMS)?;
    let counts = count(lines, COUNTS, 1, MOST_COUNTS)?;
    let (q, longest, depth) = limits(lines, rooms)?;
    let time = one_float(lines, "sample time", Sign::Above0)?;
    let outside = one_float(lines, "outside temperature", Sign::Any)?;
    let rooms = (1..=rooms).map(|room| read_room(lines, room, rooms, counts)).collect::<Result<_, _>>()?;
    Ok(Sheet { counts: counts as u64, q, longest, depth, time, outside, rooms })
}

/// The canonical text of a sheet.
pub fn show(sheet: &Sheet, shown: &mut Shown) {
    shown.line("sheet form 1");
    shown.line(format!("rooms {}", sheet.rooms.len()));
    shown.line(format!("{COUNTS} {}", sheet.counts));
    show_limits(sheet.q, sheet.longest, sheet.depth, shown);
    shown.line(format!("sample time {}", float_words(sheet.time)));
    shown.line(format!("outside temperature {}", float_words(sheet.outside)));
    for (record, room) in sheet.rooms.iter().zip(1..) {
        shown.gap();
        show_room(record, room, sheet, shown);
    }
}

fn show_room(record: &Room, room: usize, sheet: &Sheet, shown: &mut Shown) {
    shown.line(format!("room {room}"));
    show_bounds(&record.bounds, Some(sheet.counts as i64), shown);
    show_band(record.w, sheet.q, shown);
    shown.line(format!("loss {}", float_words(record.loss)));
    for (other, &g) in others(room, sheet.rooms.len()).zip(&record.exchanges) {
        shown.line(format!("exchange with room {other} {}", float_words(g)));
    }
    shown.line(match record.emitter {
        Emitter::None => "emitter none".into(),
        Emitter::Heater { p, water } => format!("emitter heater p {} water temperature {}", float_words(p), float_words(water)),
        Emitter::Steady { rate } => format!("emitter steady {}", float_words(rate)),
    });
}

/// The other rooms, in their order.
fn others(room: usize, rooms: usize) -> impl Iterator<Item = usize> {
    (1..=rooms).filter(move |&other| other != room)
}

fn read_room(lines: &mut Lines, room: i64, rooms: i64, counts: i64) -> Result<Room, Fault> {
    lines.line(&format!("room {room}"))?.end()?;
    let (bounds, w) = (bounds(lines, Some(counts))?, read_band(lines)?);
    let loss = one_float(lines, "loss", Sign::NotBelow0)?;
    let exchanges = others(room as usize, rooms as usize)
        .map(|other| one_float(lines, &format!("exchange with room {other}"), Sign::NotBelow0))
        .collect::<Result<_, _>>()?;
    let mut line = lines.line("emitter")?;
    let emitter = read_emitter(&mut line)?;
    line.end()?;
    Ok(Room { bounds, w, loss, exchanges, emitter })
}

fn read_emitter(line: &mut Line) -> Result<Emitter, Fault> {
    let kind = line.word("`none`, `heater` or `steady`", |word| ["none", "heater", "steady"].into_iter().find(|&kind| kind == word))?;
    match kind {
        "heater" => {
            line.words("p")?;
            let p = float(line, "p", Sign::NotBelow0)?;
            line.words("water temperature")?;
            Ok(Emitter::Heater { p, water: float(line, "water temperature", Sign::Any)? })
        }
        "steady" => Ok(Emitter::Steady { rate: float(line, "degrees per unit of time", Sign::Any)? }),
        _ => Ok(Emitter::None),
    }
}

/// A line with one float.
fn one_float(lines: &mut Lines, name: &str, sign: Sign) -> Result<f64, Fault> {
    let mut line = lines.line(name)?;
    let value = float(&mut line, name, sign)?;
    line.end()?;
    Ok(value)
}
