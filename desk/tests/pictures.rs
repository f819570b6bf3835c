//! The pictures: XML, with every tile of the table once and where it belongs, labels that touch nothing, and short and quick for the largest table.

mod common;

use common::xml::{self, Element};
use common::{sample, shapes, within_a_second};
use hoachulim::controls::Control;
use hoachulim::courses::course;
use hoachulim::files::{Form, House, Side, Table};
use hoachulim::kinds;
use hoachulim::library;
use hoachulim::pictures::{chain, tiles, Chart};
use hoachulim::runs::Draws;
use hoachulim::units::Units;
use std::collections::BTreeSet;

/// A rectangle of pixels: left, top, right, bottom.
type Edges = [f64; 4];

fn edges(rect: &Element) -> Edges {
    let (x, y) = (rect.number("x"), rect.number("y"));
    [x, y, x + rect.number("width"), y + rect.number("height")]
}

fn within(inner: Edges, outer: Edges) -> bool {
    // pixels are told to a hundredth
    let slack = 0.03;
    inner[0] >= outer[0] - slack && inner[1] >= outer[1] - slack && inner[2] <= outer[2] + slack && inner[3] <= outer[3] + slack
}

fn apart(one: Edges, other: Edges) -> bool {
    one[2] <= other[0] || other[2] <= one[0] || one[3] <= other[1] || other[3] <= one[1]
}

/// What a text covers, by its letters.
fn covers(text: &Element) -> Edges {
    let size = text.get("font-size").map_or(12.0, |size| size.parse().unwrap());
    let (x, y, wide) = (text.number("x"), text.number("y"), text.text().chars().count() as f64 * size * 0.605);
    let (left, right) = match text.get("text-anchor") {
        Some("middle") => (-wide / 2.0, wide / 2.0),
        Some("end") => (-wide, 0.0),
        _ => (0.0, wide),
    };
    let (above, below) = (-0.75 * size, 0.2 * size);
    match text.get("transform") {
        // read upwards: its right is above, its foot to the right
        Some(_) => [x + above, y - right, x + below, y - left],
        None => [x + left, y + above, x + right, y + below],
    }
}

/// Every label is in the picture, and touches no frame and no other label.
fn labels_are_free(svg: &Element) {
    let picture = [0.0, 0.0, svg.number("width"), svg.number("height")];
    let labels: Vec<(String, Edges)> = svg.classed("label").iter().map(|text| (text.text(), covers(text))).collect();
    for (number, (words, area)) in labels.iter().enumerate() {
        assert!(within(*area, picture), "{words} leaves the picture: {area:?} in {picture:?}");
        for frame in svg.classed("frame") {
            assert!(apart(*area, edges(frame)), "{words} touches a frame");
        }
        for (other, its_area) in &labels[..number] {
            assert!(apart(*area, *its_area), "{words} touches {other}");
        }
    }
}

/// Every tile is drawn, once where there are at most two rooms, and together they are R.
fn tiles_are_the_table_s(svg: &Element, house: &House, table: &Table) {
    let drawn = svg.classed("tile");
    let numbers: Vec<usize> = drawn.iter().map(|tile| tile.number("data-tile") as usize).collect();
    assert_eq!(numbers.iter().collect::<BTreeSet<_>>(), (0..table.tiles.len()).collect::<Vec<_>>().iter().collect());
    for (rect, number) in drawn.iter().zip(numbers) {
        let tile = &table.tiles[number];
        assert!(rect.has_class(&format!("k{}", tile.modes.len())));
        let title = format!("{} : {}", hoachulim::files::boxes::words(&tile.sides), tiles::modes_words(tile));
        assert!(table.tiles.len() > 1_024 && rect.children.is_empty() || rect.text() == title);
    }
    let lines: usize = svg.classed("line").iter().map(|path| path.get("d").unwrap().matches('M').count()).sum();
    assert!(lines >= drawn_bits(table), "a line at least for each bit of a first mode");
    let frames = svg.classed("frame");
    let boxes = svg.classed("r");
    assert_eq!(boxes.len(), frames.len());
    assert!(boxes.iter().zip(frames).all(|(r, frame)| within(edges(r), edges(frame))));
    let size = |rect: &&Element| rect.number("width") * rect.number("height");
    let (whole, parts): (f64, f64) = (boxes.iter().map(size).sum(), drawn.iter().map(size).sum());
    // thousands of slivers are each rounded to a hundredth of a pixel
    let rounded: f64 = drawn.iter().map(|rect| 0.005 * (rect.number("width") + rect.number("height"))).sum();
    assert!((whole - parts).abs() < (whole * 0.01 + 0.5).max(rounded), "tiles cover {parts} of {whole}");
    if house.plant.rooms.len() <= 2 {
        assert_eq!(drawn.len(), table.tiles.len());
    }
}

fn drawn_bits(table: &Table) -> usize {
    table.tiles.iter().map(|tile| tile.modes[0].count_ones() as usize).sum()
}

fn table_of(house: &House, bytes: &[u8]) -> Table {
    library::check(&house.bytes, bytes).unwrap();
    Table::read(bytes, &house.plant).unwrap()
}

#[test]
fn tables_of_every_shape() {
    for (house, bytes) in shapes::many() {
        let table = table_of(&house, &bytes);
        for units in [None, Some(100), Some(1_000), Some(3)].map(Units::of) {
            let svg = xml::read(&tiles::picture(&house, &table, units));
            tiles_are_the_table_s(&svg, &house, &table);
            labels_are_free(&svg);
        }
    }
}

#[test]
fn the_largest_tables_are_short_and_quick() {
    for (house, bytes) in shapes::largest() {
        let table = table_of(&house, &bytes);
        assert_eq!(table.tiles.len(), 4_096);
        let picture = within_a_second(|| tiles::picture(&house, &table, Units::of(Some(1_000))));
        let most = if house.plant.modes.len() > 16 { 1_500_000 } else { 700_000 };
        assert!(picture.len() < most, "{} bytes", picture.len());
        let svg = xml::read(&picture);
        tiles_are_the_table_s(&svg, &house, &table);
        labels_are_free(&svg);
        assert!(svg.classed("pattern").is_empty());
    }
}

#[test]
fn the_house_in_degrees_and_counts() {
    let house = kinds::house(&sample("house.sheet")).unwrap();
    let table = table_of(&house, &library::make(&house.bytes, 1).unwrap());
    let svg = xml::read(&tiles::picture(&house, &table, Units::of(Some(100))));
    let labels: Vec<String> = svg.classed("label").iter().map(|label| label.text()).collect();
    for wanted in ["19.00", "20.00", "22.00", "23.00", "1900", "2000", "2200", "2300", "room 1, degrees", "room 2, degrees"] {
        assert!(labels.iter().any(|label| label == wanted), "no label {wanted}");
    }
    let patterns: Vec<String> = svg.classed("pattern").iter().map(|pattern| pattern.text()).collect();
    assert_eq!(patterns, table.tiles.iter().map(tiles::modes_words).collect::<Vec<_>>());
}

#[test]
fn the_gallery_says_its_form() {
    let house = House::of(sample("gallery.plant"), None);
    let heading = |form| {
        let table = table_of(&house, &library::make(&house.bytes, form).unwrap());
        let svg = xml::read(&tiles::picture(&house, &table, Units::of(Some(100))));
        (svg.classed("heading")[0].text(), svg.classed("pattern").len())
    };
    assert_eq!(heading(3), ("2 rooms, form 3, 9 tiles, longest pattern 4".into(), 9));
    assert_eq!(heading(2).0, "2 rooms, form 2, 55 tiles, longest pattern 4");
    assert_eq!(heading(1).0, "2 rooms, 55 tiles, longest pattern 4");
}

/// Four rooms of which the last is cut into 1,024, the one before into four: in form 3 one map with these across and up. In forms 1 and 2 it is always
/// rooms 1 and 2.
#[test]
fn rooms_that_are_cut_most_are_on_the_map() {
    let mut rooms = shapes::lengthening(4, 8);
    // both edges of S in room 4 and the lower one in room 3 are to be seen
    rooms[3].s = rooms[3].r;
    let house = shapes::steady_in(rooms, 1, 1, 3);
    let drawn = |form| {
        let table = table_of(&house, &shapes::table(&mut shapes::Random(1), &house, form, 4));
        let svg = xml::read(&tiles::picture(&house, &table, Units::of(None)));
        let words = svg.classed("label").iter().map(|label| label.text()).find(|label| label.starts_with("across")).unwrap();
        let tiles = svg.classed("tile");
        let place = |tile: &&&Element| table.tiles[tile.number("data-tile") as usize].sides[3].lo;
        let rightmost = tiles.iter().max_by(|one, other| one.number("x").total_cmp(&other.number("x"))).unwrap();
        let is_rightmost = tiles.iter().map(|tile| place(&tile)).max() == Some(place(&rightmost));
        (words, svg.classed("frame").len(), svg.classed("edge").len(), is_rightmost)
    };
    assert_eq!(drawn(Form::Three), ("across each panel room 4, up each panel room 3".into(), 1, 3, true));
    for form in [Form::One, Form::Two] {
        let (words, panels, ..) = drawn(form);
        assert_eq!((words.as_str(), panels), ("across each panel room 1, up each panel room 2", 64));
    }
}

/// A run of so many samples of a house that has a table.
fn run_of(house: &House, bytes: &[u8], count: usize) -> Vec<hoachulim::courses::Sample> {
    let mut draws = Draws(7);
    let first = draws.reading(&house.plant.r());
    course(&house.plant, first, count, &|state, x| library::control(&house.bytes, bytes, state, x), |sides| draws.reading(sides)).unwrap()
}

#[test]
fn a_run_has_its_readings_and_modes() {
    for name in ["house.sheet", "P.plant"] {
        let house = kinds::house(&sample(name)).unwrap();
        let bytes = library::make(&house.bytes, 1).unwrap();
        let control = Control::table(&house, &bytes);
        for count in [1, 2, 40, 121, 2_000] {
            let samples = run_of(&house, &bytes, count);
            let boxes = control.boxes(&house);
            let svg = xml::read(&Chart { house: &house, boxes: &boxes, samples: &samples, units: Units::of(Some(100)) }.picture());
            labels_are_free(&svg);
            let runs = svg.classed("run");
            assert_eq!(runs.len(), house.plant.rooms.len());
            assert!(runs.iter().all(|run| run.get("points").unwrap().split(' ').count() == count));
            let lane = svg.classed("lane")[0].number("width");
            let on: f64 = svg.classed("on").iter().map(|on| on.number("width")).sum();
            let modes: u32 = samples.iter().map(|sample| sample.mode.count_ones()).sum();
            assert!((on - lane / count as f64 * f64::from(modes)).abs() < 0.02 * count as f64);
        }
    }
}

#[test]
fn a_chain_has_its_boxes() {
    let house = shapes::steady(3, 4, 2, 0, Side { lo: 2_000, hi: 2_100 }, Side { lo: 1_000, hi: 3_000 });
    let boxes: Vec<Vec<Side>> = (0..9).map(|index| vec![Side { lo: 2_000 - 90 * index, hi: 2_100 + 50 * index }; 3]).collect();
    let samples = run_of(&house, &[1, 3, 1, 2], 12);
    let svg = xml::read(&chain::picture(&Chart { house: &house, boxes: &boxes, samples: &samples, units: Units::of(Some(100)) }));
    labels_are_free(&svg);
    // two panels of nested boxes, and a chart of three rooms
    assert_eq!(svg.classed("box").len(), 5 * boxes.len());
    for frame in svg.classed("frame") {
        let inside = svg.classed("box").iter().filter(|rect| within(edges(rect), edges(frame))).count();
        assert_eq!(inside, boxes.len());
    }
}
