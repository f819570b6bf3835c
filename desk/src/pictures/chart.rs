//! A run as a chart: each room's readings against samples over R (and the boxes of a chain) and S, and below them the modes, a lane for each bit of the
//! mode's number. A filled dot is a reading at which a tile is chosen. Relies on `axes`; the run is `courses`' or any other.

use super::axes::{margin, upwards, window, Axis, LINE};
use super::hatches::emitters;
use super::svg::{px, wide, Area, Stands, Svg, LETTER, WIDTH};
use crate::courses::Sample;
use crate::files::{House, Side, Sides};
use crate::units::Units;

/// The height of a room's frame and of a lane.
const ROOM: f64 = 128.0;
const LANE: f64 = 13.0;

/// Above so many samples a reading is a point of a line and no dot.
const DOTTED: usize = 120;

/// The share of the largest box up to which S is shown on either side of it.
const SHARE: f64 = 0.5;

/// A run of a house, over R or over a chain's boxes from R on.
pub struct Chart<'a> {
    pub house: &'a House,
    pub boxes: &'a [Sides],
    pub samples: &'a [Sample],
    pub units: Units,
}

impl Chart<'_> {
    pub fn picture(&self) -> String {
        let mut svg = Svg::default();
        svg.words("label heading", (24.0, 22.0), Stands::Behind, &format!("a run of {} samples", self.samples.len()));
        let below = self.draw(&mut svg, 30.0);
        svg.close(below, &format!("A run of {} samples: readings and modes", self.samples.len()))
    }

    /// The chart from a height on; the height behind it.
    pub fn draw(&self, svg: &mut Svg, top: f64) -> f64 {
        let windows: Vec<Side> = (0..self.house.plant.rooms.len()).map(|room| self.window(room)).collect();
        let left = windows.iter().map(|&window| margin(window, self.units)).fold(self.lane_margin(), f64::max);
        let x = Across { left, step: (WIDTH - 2.0 * left) / self.samples.len().max(1) as f64 };
        let mut y = top + 8.0;
        for (room, &window) in windows.iter().enumerate() {
            let frame = Area { x: left, y, width: WIDTH - 2.0 * left, height: ROOM };
            self.room(svg, room, window, frame, x);
            y += ROOM + 18.0;
        }
        let y = self.lanes(svg, y + 4.0, x);
        self.samples_axis(svg, y, x)
    }

    /// What of S is shown: enough for the largest box and for every reading.
    pub fn window(&self, room: usize) -> Side {
        let largest = self.boxes.last().expect("there is R")[room];
        let shown = window(self.house.plant.rooms[room].s, largest, SHARE);
        let readings = || self.samples.iter().map(|sample| sample.reading[room]);
        Side { lo: readings().fold(shown.lo, i64::min), hi: readings().fold(shown.hi, i64::max) }
    }

    fn room(&self, svg: &mut Svg, room: usize, window: Side, frame: Area, x: Across) {
        let y = Axis::new(window, frame.y + frame.height, frame.y);
        let bounds = &self.house.plant.rooms[room];
        svg.rect("s", frame);
        for sides in self.boxes.iter().rev() {
            if let Some(span) = y.span(sides[room]) {
                svg.rect("box", Area::between((frame.x, frame.x + frame.width), span));
            }
        }
        svg.rect("frame", frame);
        for edge in [bounds.s.lo, bounds.s.hi].into_iter().filter(|&edge| edge == window.lo || edge == window.hi) {
            let at = y.at(edge as f64 + if edge == bounds.s.lo { -0.5 } else { 0.5 });
            svg.line("edge", (frame.x, at), (frame.x + frame.width, at));
        }
        let point = |(number, sample): (usize, &Sample)| (x.middle(number), y.at(sample.reading[room] as f64));
        svg.through("run", self.samples.iter().enumerate().map(point));
        if self.samples.len() <= DOTTED {
            for (number, sample) in self.samples.iter().enumerate() {
                svg.dot(if sample.idle { "idle" } else { "running" }, point((number, sample)), 2.6);
            }
        }
        self.names(svg, room, frame, y);
        let chain = self.boxes.iter().flat_map(|sides| [sides[room].lo, sides[room].hi]);
        let values: Vec<i64> = [bounds.s.lo, bounds.s.hi].into_iter().chain(chain).collect();
        upwards(svg, frame, y, &format!("room {}", room + 1), self.units, &values);
    }

    /// The names of S and the boxes at their upper edges, where the next box leaves space for one.
    fn names(&self, svg: &mut Svg, room: usize, frame: Area, y: Axis) {
        let tops = self.boxes.iter().enumerate().filter_map(|(index, sides)| Some((box_name(index, self.boxes.len()), y.span(sides[room])?.0)));
        let mut below = frame.y + frame.height;
        for (name, top) in tops.chain([("S".into(), frame.y)]) {
            if below - top >= LETTER + 2.0 {
                svg.words("inner", (frame.x + 5.0, top + LETTER - 0.5), Stands::Behind, &name);
            }
            below = top;
        }
    }

    /// The modes: a lane for each bit, dark where it is on, and the numbers where they fit.
    fn lanes(&self, svg: &mut Svg, mut y: f64, x: Across) -> f64 {
        let names = self.lane_names();
        for (bit, name) in names.iter().enumerate() {
            svg.rect("lane", Area { x: x.left, y, width: WIDTH - 2.0 * x.left, height: LANE });
            for (from, to) in stretches(self.samples, |sample| sample.mode >> bit & 1 == 1) {
                svg.rect("on", Area { x: x.at(from), y, width: x.at(to) - x.at(from), height: LANE });
            }
            svg.words("label", (x.left - 8.0, y + LANE - 2.5), Stands::Before, name);
            y += LANE + 3.0;
        }
        let widest = wide(&(self.house.plant.modes.len() - 1).to_string(), LETTER);
        if x.step >= widest + 1.0 {
            svg.words("label", (x.left - 8.0, y + LANE - 1.0), Stands::Before, "mode");
            for (number, sample) in self.samples.iter().enumerate() {
                svg.words("label", (x.middle(number), y + LANE - 1.0), Stands::Across, &sample.mode.to_string());
            }
            y += LANE + 3.0;
        }
        y
    }

    /// A name for each bit of a mode's number: the room that it switches, where a sheet says so.
    fn lane_names(&self) -> Vec<String> {
        match emitters(self.house) {
            Some(rooms) => rooms.iter().map(|room| format!("room {room} on")).collect(),
            None => {
                let bits = u64::BITS - (self.house.plant.modes.len() as u64 - 1).leading_zeros();
                (0..bits).map(|bit| format!("bit {bit}")).collect()
            }
        }
    }

    fn lane_margin(&self) -> f64 {
        self.lane_names().iter().map(|name| wide(name, LETTER)).fold(wide("minutes", LETTER), f64::max) + 16.0
    }

    /// Samples, and minutes where a sheet gives the sample time.
    fn samples_axis(&self, svg: &mut Svg, y: f64, x: Across) -> f64 {
        let time = self.house.sheet.as_ref().map(|sheet| sheet.time);
        let words = |number: usize| time.map_or(String::new(), |time| minutes(time, number));
        let last = self.samples.len().saturating_sub(1);
        let widest = wide(&last.to_string(), LETTER).max(wide(&words(last), LETTER)) + 10.0;
        let every = [1, 2, 5].iter().cycle().zip(0..).map(|(one, turn)| one * 10_usize.pow(turn / 3));
        let every = every.into_iter().find(|&every| every as f64 * x.step >= widest).unwrap_or(1);
        for number in (0..=last).step_by(every) {
            svg.line("tick", (x.middle(number), y), (x.middle(number), y + 4.0));
            svg.words("label", (x.middle(number), y + LINE), Stands::Across, &number.to_string());
            if time.is_some() {
                svg.words("label quiet", (x.middle(number), y + 2.0 * LINE), Stands::Across, &words(number));
            }
        }
        svg.words("label", (x.left - 8.0, y + LINE), Stands::Before, "sample");
        if time.is_some() {
            svg.words("label quiet", (x.left - 8.0, y + 2.0 * LINE), Stands::Before, "minutes");
        }
        y + if time.is_some() { 2.0 } else { 1.0 } * LINE + 10.0
    }
}

/// Samples along a line of pixels, each with a step of its own.
#[derive(Clone, Copy)]
struct Across {
    left: f64,
    step: f64,
}

impl Across {
    fn at(&self, number: usize) -> f64 {
        self.left + number as f64 * self.step
    }

    fn middle(&self, number: usize) -> f64 {
        self.at(number) + self.step / 2.0
    }
}

/// The stretches of samples of which something holds, from one number to before another.
fn stretches(samples: &[Sample], holds: impl Fn(&Sample) -> bool) -> Vec<(usize, usize)> {
    let mut stretches: Vec<(usize, usize)> = Vec::new();
    for number in (0..samples.len()).filter(|&number| holds(&samples[number])) {
        match stretches.last_mut() {
            Some((_, to)) if *to == number => *to += 1,
            _ => stretches.push((number, number + 1)),
        }
    }
    stretches
}

/// A box's name: R alone, or with its index where there is a chain.
pub fn box_name(index: usize, boxes: usize) -> String {
    if boxes == 1 { "R".into() } else { format!("R{index}") }
}

/// So many samples in minutes, the unit that a sheet's time is taken in.
pub fn minutes(time: f64, samples: usize) -> String {
    let minutes = time * samples as f64;
    // a label has no space for the digits of others
    if minutes == 0.0 || (0.01..1e6).contains(&minutes) { px(minutes) } else { format!("{minutes:.1e}") }
}
