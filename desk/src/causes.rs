//! Why a file or a call was refused: the cause among those of the refusal's row, and what was found and wanted, in one line such as
//! "6 at byte 1: the table is for 1 room, the plant has 2". That it is refused, by which number and where, is the library's word; this page looks at what
//! stands there.

use crate::files::boxes::{self, Sides};
use crate::files::chains::Inner;
use crate::files::forms::{Form, FORMS, TABLE_FORMS};
use crate::files::houses::accepted;
use crate::files::numbers::Reader;
use crate::files::plants::Bounds;
use crate::files::tables::counted;
use crate::files::{Chain, Plant, Sheet, Start, Table, Tile};
use crate::images::image;
use crate::library::{Reading, State};
use crate::refusals::Refusal;
use crate::results;

/// Why a plant's file was refused.
pub fn plant(bytes: &[u8], refusal: Refusal) -> String {
    let cause = match refusal.number {
        4 => outside(&whole(Plant::read(bytes)).rooms, refusal),
        5 => narrow_in_plant(&whole(Plant::read(bytes)), refusal),
        _ => standing(bytes, refusal, |file| Plant::follow(file).is_some()),
    };
    line(refusal, cause)
}

/// Why no table of a form was made of a plant that was accepted: 2 or 9.
pub fn made(plant: &Plant, form: u64, refusal: Refusal) -> String {
    match refusal.number {
        9 => line(refusal, no_table(plant, form)),
        _ => not_a_form(form),
    }
}

/// Why no start file with tables of a form was made of a plant that was accepted and a chain.
pub fn start_made(plant: &Plant, chain: &[u8], form: u64, refusal: Refusal) -> String {
    match refusal.number {
        9 => line(refusal, format!("{} has no table: {}", boxed(refusal.place), no_table(plant, form))),
        // both are told at 0: the chain's own form comes first, and is right where its byte is 01
        2 if chain.first() == Some(&1) => not_a_form(form),
        _ => self::chain(plant, chain, refusal),
    }
}

/// Why a sheet's file was refused.
pub fn sheet(bytes: &[u8], refusal: Refusal) -> String {
    let sheet = || whole(Sheet::read(bytes));
    let cause = match refusal.number {
        4 => outside(&sheet().rooms.iter().map(|room| room.bounds).collect::<Vec<_>>(), refusal),
        5 => narrow("w", sheet().rooms[refusal.step as usize].w, sheet().q),
        14 => results::cause(&sheet(), refusal.place as usize),
        _ => standing(bytes, refusal, |file| Sheet::follow(file).is_some()),
    };
    line(refusal, cause)
}

/// Why a table's file was refused for a plant that was accepted.
pub fn table(plant: &Plant, bytes: &[u8], refusal: Refusal) -> String {
    let follow = |file: &mut Reader, table: &mut Table| table.follow(file, plant, &plant.r());
    let cause = match refusal.number {
        7 | 8 => {
            let mut table = Table::default();
            let _ends_early_or_not = follow(&mut Reader::new(bytes), &mut table);
            images(plant, &table.tiles, &plant.r(), "R", refusal)
        }
        _ => standing(bytes, refusal, |file| follow(file, &mut Table::default()).is_some()),
    };
    line(refusal, cause)
}

/// Why a table's file was not turned into a form, for a plant that was accepted: what the checker tells of it, then 2.
pub fn relaid(plant: &Plant, bytes: &[u8], form: u64, refusal: Refusal) -> String {
    // both are told at 0: the table's own form comes first, and is right where its byte is one of the forms
    match bytes.first().and_then(|&head| Form::of(head.into())) {
        Some(own) if refusal.number == 2 => not_its_split(own, form),
        _ => table(plant, bytes, refusal),
    }
}

/// Why a chain's file was refused for a plant that was accepted.
pub fn chain(plant: &Plant, bytes: &[u8], refusal: Refusal) -> String {
    let cause = match refusal.number {
        15 => not_a_chain(plant, &accepted(Chain::read(bytes, plant.rooms.len())), refusal),
        _ => standing(bytes, refusal, |file| Chain::follow(file, plant.rooms.len()).is_some()),
    };
    line(refusal, cause)
}

/// Why a start file was refused for a plant that was accepted.
pub fn start(plant: &Plant, bytes: &[u8], refusal: Refusal) -> String {
    let read = |file: &mut Reader| {
        let mut start = Start { chain: Chain::follow(file, plant.rooms.len())?, tables: Vec::new() };
        let whole = start.follow(file, plant).is_some();
        Some((start, whole))
    };
    let cause = match refusal.number {
        15 => not_a_chain(plant, &accepted(Chain::read(bytes, plant.rooms.len())), refusal),
        7 | 8 => {
            let start = accepted(read(&mut Reader::new(bytes))).0;
            let begins_before = |inner: &Inner| inner.place as u64 <= refusal.place;
            let index = start.tables.iter().rposition(begins_before).unwrap_or(0);
            let below = index.saturating_sub(1);
            images(plant, &start.tables[index].table.tiles, &start.boxes(plant)[below], &boxed(below as u64), refusal)
        }
        _ => standing(bytes, refusal, |file| read(file).is_some_and(|(_, whole)| whole)),
    };
    line(refusal, cause)
}

/// Why a call was refused on a reading: 11. `largest` is the largest box that an idle call may begin in.
pub fn reading(plant: &Plant, largest: &[boxes::Side], state: State, x: Reading, refusal: Refusal) -> String {
    let room = refusal.place as usize;
    let cause = match state.is_idle() {
        true => format!("{} counts, idle, wanted {}", x[room], largest[room]),
        false => format!("{} counts, running, S is {}", x[room], plant.rooms[room].s),
    };
    line(refusal, cause)
}

/// Number and place in words, and the cause.
fn line(refusal: Refusal, cause: String) -> String {
    let Refusal { number, place, step } = refusal;
    match number {
        4 | 11 => format!("{number} in room {}: {cause}", place + 1),
        5 => format!("5 in room {}: {cause}", step + 1),
        7 | 8 => format!("{number} at byte {place}, step {step}: {cause}"),
        9 => format!("9: {cause}"),
        14 => format!("14 at number {place} of the plant: {cause}"),
        15 => format!("15 at box {place}: {cause}"),
        _ => format!("{number} at byte {place}: {cause}"),
    }
}

/// What stands at the place of a refusal, by a reader that ends there; where `follow` read the whole file, bytes left over.
fn standing(bytes: &[u8], refusal: Refusal, follow: impl FnOnce(&mut Reader) -> bool) -> String {
    let mut file = Reader::asked(bytes, refusal.place);
    let whole = follow(&mut file);
    let left = file.left() as u64;
    match file.noted() {
        Some(cause) => cause,
        None if whole => format!("{} left over behind the last number", counted(left, "byte")),
        None => "the file cannot be read up to there".into(),
    }
}

/// A file refused for what its numbers are together, and not for one of them.
fn whole<T>(read: Option<T>) -> T {
    read.expect("a file refused with 4, 5 or 14 is read whole")
}

/// 4.
fn outside(rooms: &[Bounds], refusal: Refusal) -> String {
    let Bounds { r, s } = rooms[refusal.place as usize];
    format!("R is {r}, S is {s}")
}

/// 5 of a plant; a form 1 plant has one band for all modes, and so no mode is named.
fn narrow_in_plant(plant: &Plant, refusal: Refusal) -> String {
    let name = if plant.form == 1 { "w".into() } else { format!("w of mode {}", refusal.place) };
    narrow(&name, plant.modes[refusal.place as usize][refusal.step as usize].w, plant.q)
}

fn narrow(name: &str, w: boxes::Side, q: u64) -> String {
    format!("{name} is {w}, which is {} wide, wanted at least q - 1 = {}", w.hi - w.lo, q - 1)
}

/// 9. Where boxes of more than one room may be split, forms 1 and 2 split them otherwise than form 3, and some plants have a table by one of these splits
/// alone; whether this is such a plant would take another search, so that it is not asked.
fn no_table(plant: &Plant, form: u64) -> String {
    let cause = "some box that can be split no further has no pattern that works; a larger longest pattern or depth, a wider R or S, or a narrower w may help";
    let otherwise = |other: &&Form| Form::of(form).is_some_and(|form| !form.splits_as(**other));
    let others: Vec<String> = FORMS.iter().filter(otherwise).map(|other| format!("form {}", other.number())).collect();
    match plant.rooms.len() > 1 && plant.depth > 0 {
        true => format!("{cause}, and so may {}: some plants have a table by one way to split alone", others.join(" or ")),
        false => cause.into(),
    }
}

/// 2 of a maker: the form that it was told.
fn not_a_form(form: u64) -> String {
    format!("2: the form asked for is {form}, wanted {TABLE_FORMS}")
}

/// 2 of a table that is of its own form rightly: the form that it was to be turned into.
fn not_its_split(own: Form, form: u64) -> String {
    let alike: Vec<String> = FORMS.iter().filter(|other| other.splits_as(own)).map(|other| other.number().to_string()).collect();
    let wanted = alike.join(" or ");
    format!("2: the form asked for is {form}, wanted {wanted}: the table is of form {}, and its boxes stay split as they are", own.number())
}

/// 7 and 8: the images of a tile up to the step, of which the last is at fault.
fn images(plant: &Plant, tiles: &[Tile], goal: &Sides, goal_name: &str, refusal: Refusal) -> String {
    let tile = tiles.iter().find(|tile| tile.place as u64 == refusal.place).expect("the tile of 7 or 8 is read");
    let steps = tile.modes.iter().take(refusal.step as usize);
    let last = steps.fold(tile.sides.clone(), |sides, &mode| image(plant, mode, &sides));
    let (limits, name) = if refusal.number == 7 { (plant.s(), "S") } else { (goal.clone(), goal_name) };
    let room = last.iter().zip(&limits).position(|(image, limit)| !limit.holds(*image)).unwrap_or(0);
    let modes: Vec<String> = tile.modes.iter().map(u64::to_string).collect();
    let tile_words = format!("tile {} with modes {}", boxes::words(&tile.sides), modes.join(" "));
    format!("{tile_words}: room {} comes to {}, {name} is {}", room + 1, last[room], limits[room])
}

/// 15: a box that does not hold the one before, or is not in S.
fn not_a_chain(plant: &Plant, chain: &Chain, refusal: Refusal) -> String {
    let boxes = [vec![plant.r()], chain.boxes.clone()].concat();
    let index = refusal.place as usize;
    let (before, here, s) = (&boxes[index - 1], &boxes[index], plant.s());
    match (0..here.len()).find(|&room| !here[room].holds(before[room])) {
        Some(room) => format!("room {} is {}, which does not hold {}'s {}", room + 1, here[room], boxed(refusal.place - 1), before[room]),
        None => {
            let room = (0..here.len()).find(|&room| !s[room].holds(here[room])).unwrap_or(0);
            format!("room {} is {}, S is {}", room + 1, here[room], s[room])
        }
    }
}

/// A box of a chain by its index, R being the first.
fn boxed(index: u64) -> String {
    if index == 0 { "R".into() } else { format!("box {index}") }
}
