//! A room's counts along a line of pixels: where a side lies, which marks there is space for, and their words on either side of a frame.
//! Relies on `svg` and `units`. Leaves out what is drawn within the frame.

use super::svg::{wide, Area, Stands, Svg, LETTER};
use crate::files::Side;
use crate::units::{counts, Units};

/// The counts of a window from one pixel to another. A count covers half a count to either side of itself, so that neighbours touch.
#[derive(Clone, Copy, Debug)]
pub struct Axis {
    pub window: Side,
    from: f64,
    to: f64,
}

impl Axis {
    pub fn new(window: Side, from: f64, to: f64) -> Axis {
        Axis { window, from, to }
    }

    /// The pixel of a value.
    pub fn at(&self, value: f64) -> f64 {
        let share = (value - self.window.lo as f64 + 0.5) / (self.window.hi - self.window.lo + 1) as f64;
        self.from + share * (self.to - self.from)
    }

    /// The pixels of what a side has within the window, the lesser first; none where it has nothing there.
    pub fn span(&self, side: Side) -> Option<(f64, f64)> {
        let (lo, hi) = (side.lo.max(self.window.lo), side.hi.min(self.window.hi));
        let (a, b) = (self.at(lo as f64 - 0.5), self.at(hi as f64 + 0.5));
        (lo <= hi).then_some((a.min(b), a.max(b)))
    }

    /// Those of the values, the first ones first, that lie in the window with so many pixels between each two.
    pub fn marks(&self, values: impl IntoIterator<Item = i64>, apart: f64) -> Vec<i64> {
        let mut marks: Vec<i64> = Vec::new();
        for value in values {
            let free = |mark: &i64| (self.at(*mark as f64) - self.at(value as f64)).abs() >= apart;
            if (self.window.lo..=self.window.hi).contains(&value) && marks.iter().all(free) {
                marks.push(value);
            }
        }
        marks
    }
}

/// What of S is shown about a box: all of it where it goes no further than a share of the box on either side.
pub fn window(s: Side, inner: Side, share: f64) -> Side {
    let more = ((inner.hi - inner.lo + 1) as f64 * share).ceil() as i64;
    Side { lo: s.lo.max(inner.lo - more), hi: s.hi.min(inner.hi + more) }
}

/// How wide the widest words of a window are, in either unit.
pub fn widest(window: Side, units: Units) -> f64 {
    [window.lo, window.hi].iter().flat_map(|&edge| [units.value(edge), counts(edge)]).map(|words| wide(&words, LETTER)).fold(0.0, f64::max)
}

/// The pixels between a frame and its words, of a tick, and of a line of words.
pub const GAP: f64 = 8.0;
const TICK: f64 = 4.0;
pub const LINE: f64 = 16.0;

/// The words below a frame, in degrees where there are any, and above it in counts; `values` by their weight.
pub fn across(svg: &mut Svg, frame: Area, axis: Axis, name: &str, units: Units, values: &[i64]) {
    let marks = axis.marks(values.iter().copied(), widest(axis.window, units) + GAP);
    let (top, bottom) = (frame.y, frame.y + frame.height);
    for mark in marks {
        let x = axis.at(mark as f64);
        svg.line("tick", (x, bottom), (x, bottom + TICK));
        svg.words("label", (x, bottom + LINE), Stands::Across, &units.value(mark));
        if units.has_degrees() {
            svg.line("tick", (x, top), (x, top - TICK));
            svg.words("label quiet", (x, top - GAP), Stands::Across, &counts(mark));
        }
    }
    let middle = frame.middle().0;
    svg.words("label", (middle, bottom + 2.0 * LINE), Stands::Across, &format!("{name}, {}", units.name()));
    if units.has_degrees() {
        svg.words("label quiet", (middle, top - GAP - LINE), Stands::Across, "counts");
    }
}

/// The words on the left of a frame, in degrees where there are any, and on its right in counts.
pub fn upwards(svg: &mut Svg, frame: Area, axis: Axis, name: &str, units: Units, values: &[i64]) {
    let (left, right, middle) = (frame.x, frame.x + frame.width, frame.middle().1);
    for mark in axis.marks(values.iter().copied(), LINE) {
        let y = axis.at(mark as f64);
        svg.line("tick", (left, y), (left - TICK, y));
        svg.words("label", (left - GAP, y + LETTER / 3.0), Stands::Before, &units.value(mark));
        if units.has_degrees() {
            svg.line("tick", (right, y), (right + TICK, y));
            svg.words("label quiet", (right + GAP, y + LETTER / 3.0), Stands::Behind, &counts(mark));
        }
    }
    let out = GAP + widest(axis.window, units) + LETTER / 2.0;
    svg.words("label", (left - out, middle), Stands::Upwards, &format!("{name}, {}", units.name()));
    if units.has_degrees() {
        svg.words("label quiet", (right + out + LETTER / 2.0, middle), Stands::Upwards, "counts");
    }
}

/// The pixels that `upwards` needs on either side of a frame.
pub fn margin(window: Side, units: Units) -> f64 {
    GAP + widest(window, units) + 1.5 * LETTER + 2.0
}
