//! The tiles of a table: one room as a strip, two as a map, three and four as panels, a map of two rooms for each slice of the others.
//! Relies on `axes` and `hatches`. A pattern stands in its tile where it fits; lines and shade say its first mode and its length everywhere.

use super::axes::{across, margin, upwards, widest, window, Axis, GAP, LINE};
use super::hatches;
use super::svg::{at, escape, fitting, wide, Area, Stands, Svg, LETTER, WIDTH};
use crate::files::boxes;
use crate::files::tables::counted;
use crate::files::{Form, House, Side, Table, Tile};
use crate::units::Units;
use std::cmp::Reverse;
use std::collections::BTreeSet;

/// Above so many tiles there are neither words in a tile nor words for a pointer that rests on it, which keeps the largest file short.
const WORDED: usize = 1_024;

/// The share of R's width up to which S is shown on either side of it, and where tiles are small.
const SHARE: f64 = 0.6;
const SMALL_SHARE: f64 = 0.08;

/// The space that a letter beside a box takes.
const LETTERED: f64 = 18.0;

/// The space between two panels.
const BETWEEN: f64 = 8.0;

/// The picture of a table that was accepted for this house.
pub fn picture(house: &House, table: &Table, units: Units) -> String {
    let mut svg = Svg::default();
    let rooms = house.plant.rooms.len();
    let heading = format!("{}, {}", counted(rooms as u64, "room"), table.words());
    svg.words("label heading", (24.0, 22.0), Stands::Behind, &heading);
    let mut drawing = Drawing { house, table, units, order: order(table, rooms), svg };
    let below = match rooms {
        1 => drawing.strip(32.0),
        2 => drawing.map(32.0),
        _ => drawing.panels(32.0),
    };
    let below = drawing.edges(below);
    let mut svg = drawing.svg;
    let below = hatches::legend(&mut svg, house, &table.tiles, below);
    svg.close(below + GAP, &format!("The tiles of a table: {heading}"))
}

struct Drawing<'a> {
    house: &'a House,
    table: &'a Table,
    units: Units,
    /// The rooms across, up, from panel to panel in a row, and from row to row.
    order: Vec<usize>,
    svg: Svg,
}

impl Drawing<'_> {
    /// One room: its tiles side by side.
    fn strip(&mut self, top: f64) -> f64 {
        let shown = self.window(0, self.share());
        let left = widest(shown, self.units) / 2.0 + GAP;
        let x = Axis::new(shown, left, WIDTH - left);
        let frame = Area::between((left, WIDTH - left), (top + 3.0 * LINE, top + 3.0 * LINE + 110.0));
        let y = Axis::new(Side { lo: 0, hi: 0 }, frame.y + frame.height - LETTERED, frame.y + LETTERED);
        self.ground(frame, &[x]);
        let r = self.tiles(x, y, |_| true, |tile| (tile.sides[0], Side { lo: 0, hi: 0 }));
        self.letters(frame, r);
        let values = self.values(0);
        across(&mut self.svg, frame, x, "room 1", self.units, &values);
        frame.y + frame.height + 2.0 * LINE
    }

    /// Two rooms: the first across, the second up.
    fn map(&mut self, top: f64) -> f64 {
        let (across_shown, up_shown) = (self.window(0, self.share()), self.window(1, self.share()));
        let left = margin(up_shown, self.units).max(margin(across_shown, self.units));
        let side = WIDTH - 2.0 * left;
        let frame = Area { x: left, y: top + 3.0 * LINE, width: side, height: side };
        let x = Axis::new(across_shown, left, left + side);
        let y = Axis::new(up_shown, frame.y + side, frame.y);
        self.ground(frame, &[x, y]);
        let r = self.tiles(x, y, |_| true, |tile| (tile.sides[0], tile.sides[1]));
        self.letters(frame, r);
        let (first, second) = (self.values(0), self.values(1));
        across(&mut self.svg, frame, x, "room 1", self.units, &first);
        upwards(&mut self.svg, frame, y, "room 2", self.units, &second);
        frame.y + side + 2.0 * LINE
    }

    /// Three or four rooms: the third's slices from left to right, the fourth's from top to bottom; with three rooms the slices go on below.
    fn panels(&mut self, top: f64) -> f64 {
        let thirds = self.slices(self.order[2]);
        let fourths = self.order.get(3).map_or(Vec::new(), |&fourth| self.slices(fourth));
        let columns = if fourths.is_empty() { thirds.len().min(4) } else { thirds.len() };
        let left = self.order.get(3).map_or(24.0, |&fourth| 24.0 + self.widest_edge(fourth) + GAP);
        let step = ((WIDTH - 24.0 - left) / columns as f64).min(176.0);
        let mut y = top;
        for (row, line) in thirds.chunks(columns).cycle().take(thirds.len().div_ceil(columns) * fourths.len().max(1)).enumerate() {
            y = self.panel_row(line, fourths.get(row).copied(), (left, y, step), fourths.is_empty() || row == 0);
        }
        let words = format!("across each panel {}, up each panel {}", self.name(0), self.name(1));
        self.svg.words("label", (24.0, y + LINE), Stands::Behind, &words);
        y + LINE
    }

    /// A row of panels at (left, top), a step apart, with their slices of the third room above where that is told, and of the fourth on the left.
    fn panel_row(&mut self, thirds: &[Side], fourth: Option<Side>, (left, top, step): (f64, f64, f64), told: bool) -> f64 {
        let top = if told { top + 4.0 * LINE } else { top };
        let side = step - BETWEEN;
        for (column, &third) in thirds.iter().enumerate() {
            let frame = Area { x: left + column as f64 * step, y: top, width: side, height: side };
            if told {
                self.third_words(third, frame, step);
            }
            self.panel(frame, third, fourth);
        }
        if let Some(fourth) = fourth {
            let (lo, hi) = self.slice_words(fourth);
            let size = LETTER.min(side / 3.75);
            for (line, words) in (1..).zip([self.name(3), lo, hi]) {
                self.svg.sized("label", (left - GAP, top + (f64::from(line) - 0.2) * size * 1.25), Stands::Before, size, &words);
            }
        }
        top + side + BETWEEN
    }

    /// A slice of the third room above its panel, in letters that fit it.
    fn third_words(&mut self, third: Side, frame: Area, step: f64) {
        let (lo, hi) = self.slice_words(third);
        let lines = [self.name(2), lo, hi];
        let size = lines.iter().map(|words| fitting(words, step - 4.0)).fold(LETTER, f64::min);
        for (line, words) in (1..).zip(lines.iter().rev()) {
            self.svg.sized("label", (frame.x, frame.y - GAP - f64::from(line - 1) * size * 1.25), Stands::Behind, size, words);
        }
    }

    /// The tiles that have the slices, in the first two rooms.
    fn panel(&mut self, frame: Area, third: Side, fourth: Option<Side>) {
        let order = self.order.clone();
        let x = Axis::new(self.window(order[0], SMALL_SHARE), frame.x, frame.x + frame.width);
        let y = Axis::new(self.window(order[1], SMALL_SHARE), frame.y + frame.height, frame.y);
        self.ground(frame, &[x, y]);
        let shows = |tile: &Tile| tile.sides[order[2]].holds(third) && fourth.is_none_or(|fourth| tile.sides[order[3]].holds(fourth));
        self.tiles(x, y, shows, |tile| (tile.sides[order[0]], tile.sides[order[1]]));
    }

    /// S within the frame, and its edges where the frame reaches them.
    fn ground(&mut self, frame: Area, axes: &[Axis]) {
        self.svg.rect("s", frame);
        self.svg.rect("frame", frame);
        for (direction, axis) in axes.iter().enumerate() {
            let s = self.house.plant.rooms[self.order[direction]].s;
            for edge in [s.lo, s.hi].iter().filter(|&&edge| edge == axis.window.lo || edge == axis.window.hi) {
                let at = axis.at(*edge as f64 + if *edge == s.lo { -0.5 } else { 0.5 });
                let (from, to) = match direction {
                    0 => ((at, frame.y), (at, frame.y + frame.height)),
                    _ => ((frame.x, at), (frame.x + frame.width, at)),
                };
                self.svg.line("edge", from, to);
            }
        }
    }

    /// The tiles that are shown here, each with its pattern where that fits, and a line about them all, which is R.
    fn tiles(&mut self, x: Axis, y: Axis, shows: impl Fn(&Tile) -> bool, sides: impl Fn(&Tile) -> (Side, Side)) -> Area {
        let area = |tile: &Tile| Some(Area::between(x.span(sides(tile).0)?, y.span(sides(tile).1)?));
        let tiles = self.table.tiles.iter().enumerate().filter(|(_, tile)| shows(tile));
        let drawn: Vec<_> = tiles.filter_map(|(number, tile)| Some((number, tile, area(tile)?))).collect();
        let mut lines = String::new();
        self.svg.raw(if self.is_worded() { "<g>" } else { "<g class=\"fine\">" });
        for &(number, tile, area) in &drawn {
            self.tile(number, tile, area);
            hatches::lines(&mut lines, tile.modes[0], area);
        }
        self.svg.path("line", &lines);
        self.svg.raw("</g>");
        let r = drawn.iter().map(|&(_, _, area)| area).reduce(joined).expect("the tiles cover R, so that some show here");
        self.svg.rect("r", r);
        for (_, tile, area) in drawn.into_iter().filter(|_| self.table.tiles.len() <= WORDED) {
            pattern(&mut self.svg, tile, area);
        }
        r
    }

    fn tile(&mut self, number: usize, tile: &Tile, area: Area) {
        let shape = format!("<rect class=\"tile {}\" data-tile=\"{number}\" {}", hatches::shade(tile), at(area));
        self.svg.raw(&match self.is_worded() {
            true => format!("{shape}><title>{} : {}</title></rect>", escape(&boxes::words(&tile.sides)), modes_words(tile)),
            false => format!("{shape}/>"),
        });
    }

    /// The letters of S and R beside their boxes, where there is space between the two.
    fn letters(&mut self, frame: Area, r: Area) {
        if r.y - frame.y >= LETTERED {
            self.svg.words("inner", (r.x, r.y - 5.0), Stands::Behind, "R");
            if r.x - frame.x >= LETTERED {
                self.svg.words("inner", (frame.x + 5.0, frame.y + LETTER + 3.0), Stands::Behind, "S");
            }
        }
    }

    /// R and S of each room in words, which no frame can cut.
    fn edges(&mut self, mut y: f64) -> f64 {
        for (number, room) in (1..).zip(&self.house.plant.rooms) {
            y += LINE + 2.0;
            let side = |side: Side| format!("{} .. {}", self.units.value(side.lo), self.units.value(side.hi));
            let words = format!("room {number}: R {}, S {} {}", side(room.r), side(room.s), self.units.name());
            self.svg.sized("label quiet", (24.0, y), Stands::Behind, fitting(&words, WIDTH - 48.0), &words);
        }
        y + GAP
    }

    fn is_worded(&self) -> bool {
        self.table.tiles.len() <= WORDED
    }

    fn share(&self) -> f64 {
        if self.is_worded() { SHARE } else { SMALL_SHARE }
    }

    fn window(&self, room: usize, share: f64) -> Side {
        let room = &self.house.plant.rooms[room];
        window(room.s, room.r, share)
    }

    /// The values that an axis marks: S's edges, R's, then where tiles begin, the middle ones first.
    fn values(&self, room: usize) -> Vec<i64> {
        let bounds = &self.house.plant.rooms[room];
        [vec![bounds.s.lo, bounds.s.hi, bounds.r.lo, bounds.r.hi], middles(&beginnings(self.table, room))].concat()
    }

    /// The slices of a room that no tile cuts.
    fn slices(&self, room: usize) -> Vec<Side> {
        let los = beginnings(self.table, room);
        let ends = los.iter().skip(1).map(|lo| lo - 1).chain([self.house.plant.rooms[room].r.hi]);
        los.iter().zip(ends).map(|(&lo, hi)| Side { lo, hi }).collect()
    }

    /// The room of a direction.
    fn name(&self, direction: usize) -> String {
        format!("room {}", self.order[direction] + 1)
    }

    fn slice_words(&self, slice: Side) -> (String, String) {
        (self.units.value(slice.lo), format!("to {}", self.units.value(slice.hi)))
    }

    fn widest_edge(&self, room: usize) -> f64 {
        let r = self.house.plant.rooms[room].r;
        [r.lo, r.hi].iter().map(|&edge| wide(&format!("to {}", self.units.value(edge)), LETTER)).fold(wide("room 4", LETTER), f64::max)
    }
}

/// The rooms by their numbers in forms 1 and 2, which cut them all alike, and where one map shows all. Else those that are cut most first, so that few
/// panels are left: of four rooms one alone may be cut a thousand times.
fn order(table: &Table, rooms: usize) -> Vec<usize> {
    let mut order: Vec<usize> = (0..rooms).collect();
    if !table.form.splits_as(Form::One) && rooms > 2 {
        order.sort_by_key(|&room| Reverse(beginnings(table, room).len()));
    }
    order
}

/// Where tiles begin in a room, from the lowest on.
fn beginnings(table: &Table, room: usize) -> Vec<i64> {
    table.tiles.iter().map(|tile| tile.sides[room].lo).collect::<BTreeSet<_>>().into_iter().collect()
}

/// A tile's pattern, across or upwards, in the largest letters that fit.
fn pattern(svg: &mut Svg, tile: &Tile, area: Area) {
    let modes = modes_words(tile);
    let (x, y) = area.middle();
    let fits = |size: f64, along: f64, thick: f64| wide(&modes, size) + 6.0 <= along && size * 1.2 <= thick;
    for size in [14.0, 11.0, 9.0, 7.0] {
        if fits(size, area.width, area.height) {
            return svg.sized("pattern", (x, y + size / 3.0), Stands::Across, size, &modes);
        }
        if fits(size, area.height, area.width) {
            return svg.sized("pattern", (x + size / 3.0, y), Stands::Upwards, size, &modes);
        }
    }
}

/// Values by halving: the middle one, then the middles of both halves, and so on.
fn middles(values: &[i64]) -> Vec<i64> {
    let (mut found, mut parts) = (Vec::new(), std::collections::VecDeque::from([values]));
    while let Some(part) = parts.pop_front() {
        if let Some(&middle) = part.get(part.len() / 2) {
            found.push(middle);
            parts.extend([&part[..part.len() / 2], &part[part.len() / 2 + 1..]]);
        }
    }
    found
}

/// A tile's modes in words.
pub fn modes_words(tile: &Tile) -> String {
    tile.modes.iter().map(u64::to_string).collect::<Vec<_>>().join(" ")
}

/// The least area about two.
fn joined(a: Area, b: Area) -> Area {
    let x = (a.x.min(b.x), (a.x + a.width).max(b.x + b.width));
    let y = (a.y.min(b.y), (a.y + a.height).max(b.y + b.height));
    Area::between(x, y)
}
