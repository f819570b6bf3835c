//! The chain of a start file: its boxes one within the other, the rooms two by two, with a run home through them, and that run as a chart.
//! Relies on `axes` and `chart`. Leaves out the tiles of each box's table.

use super::axes::{across, margin, upwards, Axis, GAP, LINE};
use super::chart::{box_name, Chart};
use super::svg::{wide, Area, Stands, Svg, LETTER, WIDTH};
use crate::courses::home;
use crate::files::{Side, Sides};

/// The height of a room by itself.
const ALONE: f64 = 150.0;

/// The picture of a chain and a run home.
pub fn picture(chart: &Chart) -> String {
    let mut svg = Svg::default();
    let about = match chart.boxes.len() - 1 {
        0 => String::new(),
        1 => " and box R1 about it".into(),
        last => format!(" and boxes R1 to R{last} about it"),
    };
    let heading = format!("R{about}, a run of {} samples", chart.samples.len());
    svg.words("label heading", (24.0, 22.0), Stands::Behind, &heading);
    let mut y = 30.0;
    for rooms in (0..chart.house.plant.rooms.len()).collect::<Vec<_>>().chunks(2) {
        y = match rooms {
            [one, other] => nested(&mut svg, chart, *one, Some(*other), y),
            _ => nested(&mut svg, chart, rooms[0], None, y),
        };
    }
    let below = chart.draw(&mut svg, y + GAP);
    svg.close(below, &format!("The chain of a start file: {heading}"))
}

/// The boxes in one room across and another up, or in one room alone, where a larger box is drawn higher.
fn nested(svg: &mut Svg, chart: &Chart, one: usize, other: Option<usize>, top: f64) -> f64 {
    let shown = |room: usize| chart.window(room);
    let left = [Some(one), other].into_iter().flatten().map(|room| margin(shown(room), chart.units)).fold(0.0, f64::max);
    let width = WIDTH - 2.0 * left;
    let frame = Area { x: left, y: top + 3.0 * LINE, width, height: if other.is_some() { width * 0.8 } else { ALONE } };
    let x = Axis::new(shown(one), left, left + width);
    let alone = Side { lo: -(chart.boxes.len() as i64), hi: chart.boxes.len() as i64 };
    let y = Axis::new(other.map_or(alone, shown), frame.y + frame.height, frame.y);
    let area = |(index, sides): (usize, &Sides)| {
        let up = other.map_or(Side { lo: -(index as i64), hi: index as i64 }, |room| sides[room]);
        Area::between(x.span(sides[one]).expect("the window holds every box"), y.span(up).expect("the window holds every box"))
    };
    let areas: Vec<Area> = chart.boxes.iter().enumerate().map(area).collect();
    boxes(svg, frame, &areas);
    // in one room alone the run goes along R's lower edge, below the names
    trace(svg, chart, |reading| (x.at(reading[one] as f64), y.at(other.map_or(-0.35, |room| reading[room] as f64))));
    across(svg, frame, x, &format!("room {}", one + 1), chart.units, &values(chart, one));
    if let Some(other) = other {
        upwards(svg, frame, y, &format!("room {}", other + 1), chart.units, &values(chart, other));
    }
    frame.y + frame.height + 2.0 * LINE + GAP
}

/// The boxes, the largest first, each with its name where the next smaller leaves space for it.
fn boxes(svg: &mut Svg, frame: Area, areas: &[Area]) {
    svg.rect("s", frame);
    for (index, &area) in areas.iter().enumerate().rev() {
        svg.rect(if index == 0 { "box r" } else { "box" }, area);
    }
    svg.rect("frame", frame);
    for (index, area) in areas.iter().enumerate() {
        let name = box_name(index, areas.len());
        let inner = index.checked_sub(1).map(|inner| areas[inner]);
        let has_space = inner.is_none_or(|inner| inner.y - area.y >= LETTER + 2.0 || inner.x - area.x >= wide(&name, LETTER) + 8.0);
        if has_space {
            svg.words("inner", (area.x + 4.0, area.y + LETTER), Stands::Behind, &name);
        }
    }
}

/// The run until it is home, reading by reading.
fn trace(svg: &mut Svg, chart: &Chart, at: impl Fn(&[i64; 4]) -> (f64, f64)) {
    let samples = match home(&chart.house.plant, chart.samples) {
        Some(at) => &chart.samples[..=at],
        None => chart.samples,
    };
    svg.through("run", samples.iter().map(|sample| at(&sample.reading)));
    for sample in samples {
        svg.dot(if sample.idle { "idle" } else { "running" }, at(&sample.reading), 2.6);
    }
}

/// S's edges, then the boxes', the innermost first.
fn values(chart: &Chart, room: usize) -> Vec<i64> {
    let s = chart.house.plant.rooms[room].s;
    [s.lo, s.hi].into_iter().chain(chart.boxes.iter().flat_map(|sides| [sides[room].lo, sides[room].hi])).collect()
}
