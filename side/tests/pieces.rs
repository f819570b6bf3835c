//! Image, split and tile rule, which no exported function hands out: each is
//! determined through the functions that are exported, to the last count.

use second::band::Band;
use second::boxes::Box;
use second::form::Form;
use second::image::image;
use second::plant::{read_plant, write_plant, Plant};
use second::tile::tile_rule;
use side::common::{file, groups, told, with, Field, Random, U};
use side::inputs::{plant_fields, random, rounds, A, BAND, EDGE};
use side::tables::{any_form, FORMS};
use side::{check, control, make, NO_MODE};

/// The plant's file; None where a value of it is out of range.
fn file_of(plant: &Plant) -> Option<Vec<u8>> {
    let mut bytes = vec![0; second::LARGEST_PLANT];
    let length = write_plant(plant, &mut bytes).ok()?;
    bytes.truncate(length);
    Some(bytes)
}

/// A side of one count, of a few or of many, now and then at the ends of the range.
fn any_side(random: &mut Random) -> (i64, i64) {
    let (near, far) = (random.within(-50, 50), random.within(-EDGE, EDGE));
    let lo = random.one(&[near, near, far, -EDGE, EDGE, EDGE - 1]);
    let (few, many) = (random.within(0, 40), random.within(0, 2 * EDGE));
    (lo, (lo + random.one(&[0, 1, 2, few, few, many])).min(EDGE))
}

// ---- image

/// A sound band: ends of both signs, often those of the range.
fn any_band(random: &mut Random, n: usize, q: i64) -> Band {
    let mut band = Band::ZEROS;
    for i in 0..n {
        let (near, far) = (random.within(-2 * q, 2 * q), random.within(-BAND, BAND));
        band.lo[i] = random.one(&[near, near, far, -BAND, BAND]).min(BAND - q + 1);
        let (few, many) = (random.within(0, 2 * q), random.within(0, BAND));
        band.hi[i] = (band.lo[i] + q - 1 + random.one(&[0, 0, few, many])).min(BAND);
    }
    band
}

/// One mode, a few or many, R any box, no depth, patterns of one: coefficients and bands of both signs, often the ends of their ranges. In form 2 each
/// mode has a band of its own.
fn any_plant(random: &mut Random) -> Plant {
    let (form, n, modes) = (random.one(&[1, 2]), random.within(1, 4) as u64, random.one(&[1, 3, 16]));
    let modes = if random.chance(100) { random.one(&[129, 256]) } else { modes };
    let mut plant = Plant { form, k: 1, ..Plant::zeros(n, modes) };
    let any = random.within(1, 10_000);
    let q = random.one(&[1, 2, 3, 10, 9_999, 10_000, any]);
    plant.q = q as u64;
    for i in 0..plant.rooms() {
        let e = &mut plant.edges;
        (e.r_lo[i], e.r_hi[i]) = any_side(random);
    }
    let one = any_band(random, plant.rooms(), q);
    for band in &mut plant.bands {
        *band = if plant.form == 1 { one } else { any_band(random, plant.n as usize, q) };
    }
    for coefficient in &mut plant.coefficients {
        let (near, far) = (random.within(-20, 20), random.within(-A, A));
        *coefficient = random.one(&[0, q, -q, near, near, far, A, -A]);
    }
    plant
}

/// Low and high edges by dimension; among the rows those with an entry at the end of its range, with an offset beyond any reading, and with a band that
/// mode 0 does not have.
#[derive(Default, Debug)]
struct Pinned {
    edges: [[usize; 2]; 4],
    steep: usize,
    far: usize,
    own_band: usize,
}

/// The mode's offsets moved by q·t, so that its image moves by t counts and ends so far beyond R: its high edges beyond R's, or its low ones.
fn moved(plant: &Plant, mode: usize, up: bool, beyond: i64) -> Plant {
    let (n, q, from) = (plant.rooms(), plant.q as i64, image(plant, mode, &plant.r()));
    let mut moved = plant.clone();
    for (i, side) in from.sides().iter().enumerate() {
        let t = if up { plant.edges.r_hi[i] + beyond - side.hi } else { plant.edges.r_lo[i] - beyond - side.lo };
        moved.coefficients[(mode * n + i) * (n + 1) + n] += q * t;
    }
    moved
}

/// With S the hull of R and the image, the image does not leave S; with S one count less where the image sticks out, it does. So that edge of the
/// image is just where the second program has it.
fn pin_image(random: &mut Random, pinned: &mut Pinned, up: bool) {
    let plant = any_plant(random);
    let mode = random.within(0, plant.modes as i64 - 1) as usize;
    let mut plant = moved(&plant, mode, up, random.one(&[1, 2, 40]));
    let (r, there) = (plant.r(), image(&plant, mode, &plant.r()));
    for (i, (own, side)) in r.sides().iter().zip(there.sides()).enumerate() {
        (plant.edges.s_lo[i], plant.edges.s_hi[i]) = (own.lo.min(side.lo), own.hi.max(side.hi));
    }
    let Some(bytes) = file_of(&plant) else { return };
    let table = file(&[any_form(random), plant.n, 1, mode as u64].map(U));
    assert_eq!(check(&bytes, &table), (8, 2, 1), "mode {mode} of {plant:?}");
    for (i, (own, side)) in r.sides().iter().zip(there.sides()).enumerate() {
        let mut less = [plant.clone(), plant.clone()];
        less[0].edges.s_lo[i] += 1;
        less[1].edges.s_hi[i] -= 1;
        for (edge, sticks_out) in [side.lo < own.lo, side.hi > own.hi].into_iter().enumerate() {
            if sticks_out {
                let bytes = file_of(&less[edge]).expect("R lies in S");
                assert_eq!(check(&bytes, &table), (7, 2, 1), "mode {mode} of {:?}", less[edge]);
                pinned.edges[i][edge] += 1;
            }
        }
        let row = plant.row(mode, i);
        pinned.steep += usize::from(row[..plant.rooms()].iter().any(|a| a.abs() == A));
        pinned.far += usize::from(row[plant.rooms()].abs() > 1_000_000_000);
        pinned.own_band += usize::from(plant.bands[mode] != plant.bands[0]);
    }
}

#[test]
fn every_edge_of_an_image() {
    let (mut random, mut pinned) = (random(14), Pinned::default());
    for _ in 0..rounds(60_000) {
        pin_image(&mut random, &mut pinned, false);
        pin_image(&mut random, &mut pinned, true);
    }
    println!("{pinned:?}");
    assert!(pinned.edges.iter().flatten().all(|times| *times > 150), "{pinned:?}");
    assert!(pinned.steep > 1_000 && pinned.far > 1_000 && pinned.own_band > 1_000, "{pinned:?}");
}

/// Any plant of one mode whose image may be no wider than R: sides of one width, rows of entries that add up to q or less, narrow bands.
fn narrowing(random: &mut Random) -> Plant {
    let mut plant = Plant { modes: 1, ..any_plant(random) };
    let (n, q, e, band) = (plant.rooms(), plant.q as i64, &mut plant.edges, &mut plant.bands[0]);
    let width = random.one(&[0, 1, 7, 40, 1_000]);
    for i in 0..n {
        e.r_lo[i] = e.r_lo[i].min(EDGE - width);
        e.r_hi[i] = e.r_lo[i] + width;
        band.hi[i] = band.lo[i] + q - 1;
    }
    for entry in &mut plant.coefficients {
        *entry = random.within(-q / n as i64, q / n as i64);
    }
    plant
}

/// An image that just lies in R: the checker takes it and the maker finds it; one count further in one dimension it does neither, whether or not S
/// reaches as far. The maker compares sums and makes no image here.
fn pin_in_r(random: &mut Random, pinned: &mut [[usize; 2]; 4], up: bool) {
    let mut plant = moved(&narrowing(random), 0, up, 0);
    (plant.edges.s_lo, plant.edges.s_hi) = (plant.edges.r_lo, plant.edges.r_hi);
    let (n, r, form) = (plant.rooms(), plant.r(), any_form(random));
    let table = [form as u8, plant.n as u8, 1, 0];
    let Some(bytes) = file_of(&plant).filter(|_| image(&plant, 0, &r).lies_in(&r)) else { return };
    let mut made = [0; 4];
    assert_eq!(check(&bytes, &table), (0, 0, 0), "{plant:?}");
    assert_eq!((make(&bytes, form, &mut made), made), ((0, 4, 0), table), "{plant:?}");
    for i in 0..n {
        let mut further = plant.clone();
        further.coefficients[i * (n + 1) + n] += if up { plant.q as i64 } else { -(plant.q as i64) };
        for number in [7, 8] {
            let Some(bytes) = file_of(&further) else { break };
            assert_eq!(check(&bytes, &table), (number, 2, 1), "{further:?}");
            assert_eq!(make(&bytes, form, &mut made), (9, 0, 0), "{further:?}");
            pinned[i][usize::from(up)] += 1;
            further.edges.s_lo[i] -= i64::from(!up);
            further.edges.s_hi[i] += i64::from(up);
        }
    }
}

#[test]
fn images_just_in_r() {
    let (mut random, mut pinned) = (random(17), [[0; 2]; 4]);
    for _ in 0..rounds(20_000) {
        pin_in_r(&mut random, &mut pinned, false);
        pin_in_r(&mut random, &mut pinned, true);
    }
    println!("just in R: {pinned:?}");
    assert!(pinned.iter().flatten().all(|times| *times > 200), "{pinned:?}");
}

// ---- split

/// The sides of a box: any, or all of one length but for some that are a count shorter, or one alone long and the others short.
fn any_sides(random: &mut Random, n: usize) -> Vec<(i64, i64)> {
    let (kind, long) = (random.within(0, 3), random.one(&[1, 2, 3, 40, 1_000, 1_000_000]));
    let own = random.within(0, n as i64 - 1) as usize;
    let mut side = |i: usize| {
        let length = match kind {
            0 => long - random.within(0, 1),
            1 if i == own => long,
            1 => random.within(0, 2),
            _ => return any_side(random),
        };
        let (near, far) = (random.within(-long - 3, 3), random.within(-EDGE, EDGE - length));
        let lo = random.one(&[near, near, far, -EDGE]).max(-EDGE);
        (lo, lo + length)
    };
    (0..n).map(&mut side).collect()
}

/// R any box, some depth, and a mode under which every reading stays, so that any division of R is a table.
fn staying(random: &mut Random) -> Plant {
    let n = random.within(1, 4) as usize;
    let d = random.within(1, 6.min(12 / n as i64)) as u64;
    let mut plant = Plant { form: random.one(&[1, 2]), q: 1, k: 2, d, ..Plant::zeros(n as u64, 1) };
    for (i, (lo, hi)) in any_sides(random, n).into_iter().enumerate() {
        let e = &mut plant.edges;
        (e.r_lo[i], e.r_hi[i], e.s_lo[i], e.s_hi[i]) = (lo, hi, lo, hi);
        plant.coefficients[i * (n + 1) + i] = 1;
    }
    plant
}

/// Every corner of a box, and one count beyond each in each dimension; numbers beyond n are anything.
fn corners(random: &mut Random, of: &Box) -> Vec<[i64; 4]> {
    let sides = of.sides();
    let mut readings = Vec::new();
    for corner in 0..1 << sides.len() {
        let mut x = [random.within(i64::MIN, i64::MAX); 4];
        for (i, side) in sides.iter().enumerate() {
            x[i] = if corner >> i & 1 == 1 { side.hi } else { side.lo };
        }
        readings.push(x);
        for i in 0..sides.len() {
            let mut beyond = x;
            beyond[i] += if corner >> i & 1 == 1 { 1 } else { -1 };
            readings.push(beyond);
        }
    }
    readings
}

/// A tile of a division: its box, its place in the file, and the depth left there.
struct Tile {
    of: Box,
    place: u64,
    depth_left: u64,
}

/// R divided by a form's splits, about one reading as deep as may be and elsewhere by chance, into not too many tiles. Each has a pattern of two, so that
/// the place which an idle call leaves tells the tile.
struct Division {
    form: Form,
    about: [i64; 4],
    table: Vec<u8>,
    tiles: Vec<Tile>,
    to_come: usize,
    /// How many splits there were, by the number of their children.
    splits: [usize; 17],
}

impl Division {
    fn any(random: &mut Random, plant: &Plant, form: u64) -> Division {
        let form = Form::of(form, 0).expect("a form");
        let (e, table) = (&plant.edges, vec![form.number(), plant.n as u8]);
        let about = std::array::from_fn(|i| {
            let any = random.within(e.r_lo[i], e.r_hi[i]);
            random.one(&[e.r_lo[i], e.r_hi[i], any])
        });
        let mut division = Division { form, about, table, tiles: Vec::new(), to_come: 1, splits: [0; 17] };
        division.divide(random, &plant.r(), form.depth(plant));
        division
    }

    fn divide(&mut self, random: &mut Random, here: &Box, depth_left: u64) {
        self.to_come -= 1;
        let children: Vec<Box> = self.form.split(here, depth_left).into_iter().flatten().collect();
        let room = self.tiles.len() + self.to_come + children.len() <= 400;
        if !children.is_empty() && room && (here.contains(&self.about) || random.chance(6)) {
            self.table.push(0);
            self.to_come += children.len();
            self.splits[children.len()] += 1;
            let (first_tile, mut bounds) = (self.tiles.len(), vec![self.table.len()]);
            for child in &children {
                self.divide(random, child, depth_left - 1);
                bounds.push(self.table.len());
            }
            if self.form.tells_lengths() {
                self.put_lengths(&bounds, first_tile);
            }
            return;
        }
        self.tiles.push(Tile { of: *here, place: self.table.len() as u64, depth_left });
        self.table.extend([2, 0, 0]);
    }

    /// Sets the lengths of a split's children but the last before the first of them, and moves their tiles.
    fn put_lengths(&mut self, bounds: &[usize], first_tile: usize) {
        let told = bounds[..bounds.len() - 1].windows(2);
        let lengths: Vec<u8> = told.flat_map(|child| groups((child[1] - child[0]) as u128)).collect();
        for tile in &mut self.tiles[first_tile..] {
            tile.place += lengths.len() as u64;
        }
        self.table.splice(bounds[0]..bounds[0], lengths);
    }

    /// The table with a split in place of a tile.
    fn with_split_at(&self, tile: &Tile) -> Vec<u8> {
        let (before, behind) = self.table.split_at(tile.place as usize);
        [before, &[0], behind].concat()
    }
}

/// An idle call answers which tile holds a reading: at the corners of some dozen tiles, beside them, and anywhere.
fn pin_tiles(random: &mut Random, plant: &Plant, bytes: &[u8], division: &Division) {
    assert_eq!(check(bytes, &division.table), (0, 0, 0), "{plant:?} {:?}", division.table);
    let (r, e, tiles) = (plant.r(), &plant.edges, &division.tiles);
    let some = (tiles.len() / 12 + 1) as i64;
    let picked: Vec<&Tile> = tiles.iter().filter(|_| random.chance(some)).collect();
    let mut readings: Vec<[i64; 4]> = picked.iter().flat_map(|tile| corners(random, &tile.of)).collect();
    readings.extend((0..20).map(|_| std::array::from_fn(|i| random.within(e.r_lo[i], e.r_hi[i]))));
    for x in readings {
        let held_by: Vec<u64> = tiles.iter().filter(|tile| tile.of.contains(&x)).map(|tile| tile.place).collect();
        let wanted = match (r.first_outside(&x), &held_by[..]) {
            (None, [place]) => (0, [0, 0, 0, place + 2, 1]),
            (Some(dimension), []) => (NO_MODE, [11, dimension as u64, 0, 0, 0]),
            _ => panic!("{x:?} is held by {held_by:?}: {plant:?} {:?}", division.table),
        };
        assert_eq!(control(bytes, &division.table, 0, 0, x), wanted, "{x:?} in {plant:?} {:?}", division.table);
    }
}

/// How many splits there were by their children, and how many divisions by the splits on the way to the deepest tile, and by rooms those as deep as may be;
/// and how many splits were refused, with no depth left and with no side left.
#[derive(Default, Debug)]
struct Divided {
    splits: [usize; 17],
    depths: [usize; 13],
    deepest: [usize; 5],
    too_deep: usize,
    one_reading: usize,
}

/// A division of R, and a split more where there may be none: 6 at its place, by the checker and by a call that meets it.
fn pin_division(random: &mut Random, divided: &mut Divided, form: u64) {
    let plant = staying(random);
    let bytes = file_of(&plant).expect("a sound plant");
    let division = Division::any(random, &plant, form);
    pin_tiles(random, &plant, &bytes, &division);
    let depth = division.form.depth(&plant);
    let least_left = division.tiles.iter().map(|tile| tile.depth_left).min().expect("a tile");
    divided.depths[(depth - least_left) as usize] += 1;
    divided.deepest[plant.rooms()] += usize::from(least_left == 0);
    divided.splits.iter_mut().zip(division.splits).for_each(|(all, splits)| *all += splits);
    for tile in division.tiles.iter().filter(|tile| division.form.split(&tile.of, tile.depth_left).is_none()) {
        let table = division.with_split_at(tile);
        assert_eq!(check(&bytes, &table), (6, tile.place, 0), "{plant:?} {table:?}");
        let low_corner = std::array::from_fn(|i| tile.of.sides().get(i).map_or(i64::MIN, |side| side.lo));
        assert_eq!(control(&bytes, &table, 0, 0, low_corner), (NO_MODE, [6, tile.place, 0, 0, 0]), "{plant:?} {table:?}");
        *(if tile.depth_left == 0 { &mut divided.too_deep } else { &mut divided.one_reading }) += 1;
    }
}

#[test]
fn every_tile_of_a_division() {
    let mut random = random(15);
    for form in FORMS {
        let mut divided = Divided::default();
        for _ in 0..rounds(4_000) {
            pin_division(&mut random, &mut divided, form);
        }
        println!("form {form}: {divided:?}");
        let (deepest, children) = if form == 3 { (12, &[2][..]) } else { (6, &[2, 4, 8, 16][..]) };
        assert!((0..17).all(|count| (divided.splits[count] > 100) == children.contains(&count)), "{divided:?}");
        assert!(divided.depths[..=deepest].iter().all(|times| *times > 5), "{divided:?}");
        assert!(divided.deepest[1..].iter().all(|times| *times > 100), "{divided:?}");
        assert!(divided.too_deep > 1_000 && divided.one_reading > 1_000, "{divided:?}");
    }
}

// ---- tile rule

#[test]
fn the_tile_rule() {
    let mut random = random(16);
    // by number, 0, 7 or 8, and the pattern's length, or the step told
    let mut seen = [[0; 7]; 9];
    for _ in 0..rounds(20_000) {
        let fields = with(&with(&plant_fields(&mut random), 4, U(6)), 5, U(0));
        let bytes = file(&fields);
        let plant = read_plant(&bytes).expect("a sound plant");
        for length in 1..=6_u64 {
            let pattern: Vec<u8> = (0..length).map(|_| random.within(0, plant.modes as i64 - 1) as u8).collect();
            let tile: Vec<Field> = pattern.iter().map(|mode| U((*mode).into())).collect();
            let table = file(&[&[U(any_form(&mut random)), U(plant.n), U(length)][..], &tile].concat());
            let answer = check(&bytes, &table);
            assert_eq!(answer, told(tile_rule(&plant, &plant.r(), &plant.r(), &pattern, 2)), "{pattern:?} in {plant:?}");
            let step = if answer.0 == 0 { length } else { answer.2 };
            seen[answer.0 as usize][step as usize] += 1;
        }
    }
    println!("works {:?}, leaves S {:?}, not in R {:?}", seen[0], seen[7], seen[8]);
    for number in [0, 7, 8] {
        assert!(seen[number][1..].iter().all(|times| *times > 20), "{number}: {:?}", seen[number]);
    }
}
