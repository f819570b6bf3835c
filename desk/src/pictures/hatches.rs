//! How a pattern looks where no words fit: its first mode by lines, its length by a shade. Each of the mode number's first four bits has a direction, and
//! each of the next four the same direction in pairs of lines. Both can be told in grey and in a tile of a few pixels. Relies on `svg`; modes have eight bits
//! at most. The lines are drawn and no fill of SVG's own, which takes a browser minutes to print where there are thousands of tiles.

use super::axes::LINE;
use super::svg::{at, px, wide, Area, Stands, Svg, LETTER, WIDTH};
use crate::files::{House, Tile};
use std::collections::BTreeSet;
use std::fmt::Write;

/// The pixels between two lines of one direction, where a tile has space for two.
const APART: f64 = 8.0;

/// A tile of fewer pixels across or up has one line of each direction, however long it is: of thousands side by side each would have a hundred.
const SLIVER: f64 = 1.0;

/// A tile's shade, which is a class of the style.
pub fn shade(tile: &Tile) -> String {
    length_shade(tile.modes.len())
}

fn length_shade(length: usize) -> String {
    format!("k{length}")
}

/// Where in its part of a length a line stands: a single one in the middle, a pair beside each other near the end.
const SINGLE: &[f64] = &[0.5];
const PAIR: &[f64] = &[0.75, 0.95];

/// Adds a mode's lines over an area to a path: across for bit 0, upright for bit 1, rising for bit 2, falling for bit 3, and so again in pairs.
pub fn lines(path: &mut String, mode: u64, area: Area) {
    directed(path, mode & 15, area, SINGLE);
    directed(path, mode >> 4, area, PAIR);
}

fn directed(path: &mut String, bits: u64, area: Area, stands: &'static [f64]) {
    let Area { width, height, .. } = area;
    let spread = |length: f64| spread(length, stands, width.min(height) < SLIVER);
    let mut line = |x: f64, y: f64, to: String| {
        let _ = write!(path, "M{} {}{to}", px(area.x + x), px(area.y + y));
    };
    if bits & 1 != 0 {
        spread(height).for_each(|y| line(0.0, y, format!("h{}", px(width))));
    }
    if bits & 2 != 0 {
        spread(width).for_each(|x| line(x, 0.0, format!("v{}", px(height))));
    }
    // a slant leaves the left or lower side at its distance along both, and comes in at the upper or right side
    for distance in spread(width + height).filter(|_| bits & 12 != 0) {
        let (left, right) = ((distance - height).max(0.0), distance.min(width));
        let (low, high) = (distance.min(height), (distance - width).max(0.0));
        if bits & 4 != 0 {
            line(left, low, format!("l{} {}", px(right - left), px(high - low)));
        }
        if bits & 8 != 0 {
            line(left, height - low, format!("l{} {}", px(right - left), px(low - high)));
        }
    }
}

/// The places of lines in equal parts of a length, as many parts as there is space for, or the whole of it alone.
fn spread(length: f64, stands: &'static [f64], whole: bool) -> impl Iterator<Item = f64> {
    let parts = if whole { 1.0 } else { (length / APART).round().max(1.0) };
    (0..parts as u32).flat_map(move |part| stands.iter().map(move |stand| (f64::from(part) + stand) * length / parts))
}

/// What lines and shades say, from a height on; the height behind it.
pub fn legend(svg: &mut Svg, house: &House, tiles: &[Tile], top: f64) -> f64 {
    let modes: BTreeSet<u64> = tiles.iter().map(|tile| tile.modes[0]).collect();
    let lengths: BTreeSet<usize> = tiles.iter().map(|tile| tile.modes.len()).collect();
    let modes = modes.into_iter().map(|mode| Swatch { mode, length: 1, words: mode_words(house, mode) });
    let lengths = lengths.into_iter().map(|length| Swatch { mode: 0, length, words: length.to_string() });
    let below = row(svg, "lines: the first mode", modes.collect(), top);
    row(svg, "shade: the modes of a pattern", lengths.collect(), below)
}

/// A first mode and a length with what they are.
struct Swatch {
    mode: u64,
    length: usize,
    words: String,
}

/// A row of swatches with their words, going on below where the picture is full.
fn row(svg: &mut Svg, name: &str, swatches: Vec<Swatch>, top: f64) -> f64 {
    let left = 24.0;
    let mut y = top + LINE;
    svg.words("label quiet", (left, y), Stands::Behind, name);
    let mut x = left;
    y += LINE + 4.0;
    for swatch in swatches {
        let area = Area { x, y: y - LETTER + 1.0, width: 2.0 * LETTER, height: LETTER + 4.0 };
        let wide = area.width + 6.0 + wide(&swatch.words, LETTER);
        if x + wide > WIDTH - left / 2.0 {
            (x, y) = (left, y + LINE + 6.0);
        }
        let area = Area { x, y: y - LETTER + 1.0, ..area };
        svg.raw(&format!("<rect class=\"key {}\" {}/>", length_shade(swatch.length), at(area)));
        let mut path = String::new();
        lines(&mut path, swatch.mode, area);
        svg.path("line", &path);
        svg.words("label", (area.x + area.width + 6.0, y + 1.0), Stands::Behind, &swatch.words);
        x += wide + 18.0;
    }
    y + 8.0
}

/// A mode's number, with what it switches on where a sheet says so.
pub fn mode_words(house: &House, mode: u64) -> String {
    let Some(emitters) = emitters(house) else { return mode.to_string() };
    let on: Vec<String> = emitters.iter().enumerate().filter(|(bit, _)| mode >> bit & 1 == 1).map(|(_, room)| room.to_string()).collect();
    match on.len() {
        0 => format!("{mode} none on"),
        1 => format!("{mode} room {} on", on[0]),
        _ => format!("{mode} rooms {} on", on.join(", ")),
    }
}

/// The rooms that have an emitter, from 1, in the order of the mode's bits.
pub fn emitters(house: &House) -> Option<Vec<usize>> {
    use crate::files::sheets::Emitter;
    let rooms = &house.sheet.as_ref()?.rooms;
    Some((1..).zip(rooms).filter(|(_, room)| room.emitter != Emitter::None).map(|(number, _)| number).collect())
}

#[cfg(test)]
mod tests {
    use super::*;

    #[test]
    fn no_two_modes_look_alike() {
        for (width, height) in [(4.0, 4.0), (24.0, 16.0), (100.0, 30.0)] {
            let area = Area { x: 10.0, y: 20.0, width, height };
            let looks = |mode| {
                let mut path = String::new();
                lines(&mut path, mode, area);
                path
            };
            assert_eq!((0..256).map(looks).collect::<BTreeSet<_>>().len(), 256);
        }
    }
}
