//! What is seen on the page: the table's picture, a run of extreme readings, and every tile in the listing's form. Relies on `pictures`.

use super::Accepted;
use crate::controls::Control;
use crate::courses::{home, space};
use crate::files::tables::counted;
use crate::files::{Table, Tile};
use crate::pictures::svg::escape;
use crate::pictures::{chain, tiles as drawn, Chart};
use crate::units::counts;

/// The table, and of a start file the chain; then the run.
pub fn pictures(accepted: &Accepted) -> String {
    let (house, units) = (accepted.house, accepted.units);
    let boxes = accepted.control.boxes(house);
    let chart = Chart { house, boxes: &boxes, samples: accepted.samples, units };
    let table = drawn::picture(house, accepted.control.tables()[0], units);
    let map = figure(
        &table,
        "R cut into tiles, in S. The numbers in a tile are the modes of its pattern, one a sample. Lines and shade say the same without words.",
    );
    let run = match accepted.control {
        Control::Table(_) => chart.picture(),
        Control::Start(_) => chain::picture(&chart),
    };
    format!(
        "<section>\n<h2>The table</h2>\n{map}</section>\n<section>\n<h2>A run at the edge</h2>\n<p>{}</p>\n{}</section>\n",
        run_words(accepted),
        figure(
            &run,
            "A filled dot is a reading at which a tile is chosen, an open one a reading within a pattern. Shaded: R, and the boxes about it where there \
             are any."
        )
    )
}

fn figure(svg: &str, caption: &str) -> String {
    format!("<figure>\n<div class=\"wide\">{svg}</div>\n<figcaption>{caption}</figcaption>\n</figure>\n")
}

/// What the run is and what came of it.
fn run_words(accepted: &Accepted) -> String {
    let (plant, samples) = (&accepted.house.plant, accepted.samples);
    let first: Vec<String> = samples[0].reading[..plant.rooms.len()].iter().map(|&x| counts(x)).collect();
    let begins = match accepted.control {
        Control::Table(_) => "a corner of a tile with the longest pattern",
        Control::Start(_) => "the corner of the largest box from which it is home last",
    };
    // behind the first sample: a table's run begins in R
    let back = home(plant, &samples[1..]).map_or(String::new(), |at| format!(" A tile in R is next chosen at sample {}.", at + 1));
    let nearest = samples.iter().map(|sample| space(plant, &sample.reading)).min().unwrap_or(0);
    format!(
        "From the reading {} (counts), {begins}, each next reading is in every room the lowest or the highest that equation and band allow, whichever is \
         further from the middle of R.{back} In {} it comes no nearer to an edge of S than {}. It is one run, for the eye: the promise is about all of them.",
        first.join(" "),
        counted(samples.len() as u64, "sample"),
        accepted.units.words(nearest)
    )
}

/// Every tile, table by table.
pub fn tiles(accepted: &Accepted) -> String {
    let tables = accepted.control.tables();
    let lists: String = tables.iter().enumerate().map(|(index, table)| list(accepted, index, table, tables.len() > 1)).collect();
    format!(
        "<section>\n<h2>Tiles</h2>\n<p>In counts as the listing has them: lo and hi of each room, a colon, the modes{}</p>\n{lists}</section>\n",
        if accepted.units.has_degrees() { "; behind them the tile in degrees." } else { "." }
    )
}

/// A line a tile. One text, since a browser takes minutes to print thousands of rows in columns.
fn list(accepted: &Accepted, index: usize, table: &Table, named: bool) -> String {
    let words = table.words();
    let heading = if named { format!("<h3>R{index}: {words}</h3>\n") } else { format!("<p>{words}.</p>\n") };
    let listed: Vec<String> = table.tiles.iter().map(line).collect();
    let widest = listed.iter().map(String::len).max().unwrap_or(0);
    let both = |(tile, line): (&Tile, &String)| match accepted.units.has_degrees() {
        true => format!("{line:widest$}   {}", degrees(accepted, tile)),
        false => line.clone(),
    };
    let lines: Vec<String> = table.tiles.iter().zip(&listed).map(both).collect();
    let widest = lines.iter().map(|line| line.chars().count()).max().unwrap_or(0);
    // a letter is three fifths of its size wide
    let column = widest * 5 / 8 + 1;
    format!("{heading}<div class=\"wide\"><pre class=\"tiles\" style=\"column-width:{column}em\">{}</pre></div>\n", escape(&lines.join("\n")))
}

fn degrees(accepted: &Accepted, tile: &Tile) -> String {
    let units = accepted.units;
    let sides: Vec<String> = tile.sides.iter().map(|side| format!("{}–{}", units.value(side.lo), units.value(side.hi))).collect();
    sides.join(" × ")
}

/// A tile as the listing prints it.
fn line(tile: &Tile) -> String {
    let sides: Vec<String> = tile.sides.iter().map(|side| format!("{} {}", side.lo, side.hi)).collect();
    format!("{} : {}", sides.join(" "), drawn::modes_words(tile))
}
