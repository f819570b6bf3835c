//! The program against slow ways of saying the same: patterns tried one by one
//! with images from all corners in 128 bits, boxes point by point, tables
//! judged by a list of boxes still to come, floats by their decimal digits,
//! and the controller against rooms that do whatever the plant allows.

mod common;
mod slow;
use common::*;
use second::boxes::Box;
use second::checker::check;
use second::control::{control, State};
use second::image::image;
use second::maker::make;
use second::nearest::nearest;
use second::plant::{read_plant, write_plant, Plant};
use second::sheet::{plant_of_sheet, read_sheet, sheet_to_plant, write_sheet, Emitter, Sheet};
use slow::*;

/// Plants with tables of several tiles or a long pattern, for the tests behind
/// the maker's; at least half of them split. So many of form 1, then as many of
/// form 2 and of form 3.
fn made_tables(seed: u64, wanted: usize) -> Vec<(Plant, Vec<u8>, Vec<u8>)> {
    let mut random = Random(seed);
    let mut made = vec![];
    while made.len() < 3 * wanted {
        let form = (1 + made.len() / wanted) as u64;
        let plant = pulling_plant(&mut random);
        let bytes = plant_bytes(&plant);
        let mut table = vec![0; 34_389];
        if let Ok(length) = make(&bytes, form, &mut table) {
            let several = table[2] == 0;
            let wide_enough = made.len() % 2 == 1 || several;
            if length > 4 && wide_enough {
                table.truncate(length);
                made.push((plant, bytes, table));
            }
        }
    }
    made
}

#[test]
fn the_maker_agrees_with_the_slow_one() {
    let mut random = Random(1);
    let (mut none, mut split, mut long) = (0, 0, 0);
    for _ in 0..8_000 {
        let plant = pulling_plant(&mut random);
        let bytes = plant_bytes(&plant);
        let mut buffer = marked(4_000);
        let answer = make(&bytes, 1, &mut buffer);
        match slow_table(&plant, &r_of(&plant), &r_of(&plant)) {
            None => {
                assert_eq!(told(answer), (9, 0, 0), "{plant:?}");
                none += 1;
            }
            Some(table) => {
                assert_eq!(answer, Ok(table.len()), "{plant:?}");
                assert_eq!(buffer[..table.len()], table, "{plant:?}");
                assert_eq!(check(&bytes, &table), Ok(()));
                split += usize::from(table[2] == 0);
                long += usize::from(table[2] > 1);
            }
        }
    }
    assert!(none > 100 && split > 100 && long > 100, "{none} {split} {long}");
}

#[test]
fn the_maker_agrees_at_the_limits() {
    let mut random = Random(2);
    let (mut made, mut none) = (0, 0);
    for _ in 0..20_000 {
        let plant = extreme_plant(&mut random, 1);
        let Ok(length) = write_plant(&plant, &mut [0; second::LARGEST_PLANT]) else { continue };
        let bytes = plant_bytes(&plant);
        assert_eq!(length, bytes.len());
        let mut buffer = marked(200);
        let answer = make(&bytes, 1, &mut buffer);
        match slow_table(&plant, &r_of(&plant), &r_of(&plant)) {
            None => {
                assert_eq!(told(answer), (9, 0, 0));
                none += 1;
            }
            Some(table) => {
                assert_eq!(answer, Ok(table.len()));
                assert_eq!(buffer[..table.len()], table);
                made += 1;
            }
        }
    }
    assert!(made > 20 && none > 1_000, "{made} {none}");
}

/// A small plant for images: any signs, small numbers.
fn small_plant(random: &mut Random) -> Plant {
    let n = random.within(1, 3) as usize;
    let q = random.within(1, 12);
    let mut plant = Plant { q: q as u64, ..Plant::zeros(n as u64, 1) };
    for i in 0..n {
        let band = &mut plant.bands[0];
        band.lo[i] = random.within(-20, 20);
        band.hi[i] = band.lo[i] + q - 1 + random.within(0, 5);
    }
    plant.coefficients[..n * (n + 1)].iter_mut().for_each(|slot| *slot = random.within(-15, 15));
    plant
}

#[test]
fn the_image_agrees_with_all_points_and_all_next_readings() {
    let mut random = Random(3);
    for _ in 0..2_000 {
        let plant = small_plant(&mut random);
        let n = plant.n as usize;
        let lo: Vec<i64> = (0..n).map(|_| random.within(-6, 6)).collect();
        let hi: Vec<i64> = lo.iter().map(|lo| lo + random.within(0, 3)).collect();
        let made = image(&plant, 0, &Box::new(&lo, &hi));
        let points = points(&wide(&lo, &hi, n));
        for i in 0..n {
            let values: Vec<i128> = points.iter().map(|x| row_value(&plant, 0, i, x)).collect();
            // "y may follow exactly when q*y - (A x + b) lies in w lo .. w hi".
            let follows = |y: &i128| {
                let (w_lo, w_hi) = (plant.bands[0].lo[i] as i128, plant.bands[0].hi[i] as i128);
                values.iter().any(|v| {
                    let apart = plant.q as i128 * y - v;
                    apart >= w_lo && apart <= w_hi
                })
            };
            // |A x + b| <= 3*15*9 + 15, the band within 36: y is well within 600.
            let reached: Vec<i128> = (-600..=600).filter(follows).collect();
            assert_eq!(made.sides()[i].lo as i128, reached[0], "{plant:?} {lo:?} {hi:?}");
            assert_eq!(made.sides()[i].hi as i128, reached[reached.len() - 1]);
        }
    }
}

#[test]
fn children_cover_the_box_and_are_apart() {
    let mut random = Random(4);
    for _ in 0..3_000 {
        let n = random.within(1, 4) as usize;
        let lo: Vec<i64> = (0..n).map(|_| random.within(-9, 9)).collect();
        let hi: Vec<i64> = lo.iter().map(|lo| lo + random.within(0, 4)).collect();
        let here = wide(&lo, &hi, n);
        let points = points(&here);
        let Some(children) = Box::new(&lo, &hi).split() else {
            assert_eq!(points.len(), 1);
            continue;
        };
        let children: Vec<Box> = children.collect();
        let longer = lo.iter().zip(&hi).filter(|(lo, hi)| lo < hi).count();
        assert_eq!(children.len(), 1 << longer);
        for point in &points {
            let mut reading = [0; 4];
            reading.iter_mut().zip(point).for_each(|(slot, x)| *slot = *x as i64);
            let holding = children.iter().filter(|child| child.contains(&reading)).count();
            assert_eq!(holding, 1);
        }
        for (child, slow) in children.iter().zip(slow_children(&here)) {
            let sides = child.sides().iter();
            let edges: Wide = sides.map(|side| (side.lo as i128, side.hi as i128)).unzip();
            assert_eq!(edges, slow);
            assert!(inside(&edges, &here));
        }
    }
}

/// A table with a byte changed, put in, taken out or behind, or cut.
fn damaged(random: &mut Random, table: &[u8]) -> Vec<u8> {
    let mut other = table.to_vec();
    let at = random.within(0, table.len() as i64 - 1) as usize;
    let byte = [0, 1, 2, 3, 0x80, 0x81, random.next() as u8][random.within(0, 6) as usize];
    match random.within(0, 5) {
        0 => other.truncate(at),
        1 => other.insert(at, byte),
        2 => drop(other.remove(at)),
        3 => other.push(byte),
        // the same tree under another form, or under none
        4 => other[0] = random.within(0, 4) as u8,
        _ => other[at] = byte,
    }
    other
}

#[test]
fn the_checker_agrees_on_damaged_tables() {
    let mut random = Random(5);
    let mut seen = [0; 9];
    for (plant, bytes, table) in made_tables(50, 150) {
        assert_eq!(check(&bytes, &table), Ok(()));
        for _ in 0..60 {
            let other = damaged(&mut random, &table);
            let answer = told(check(&bytes, &other));
            assert_eq!(answer, slow_check(&plant, &other), "{plant:?} {other:?}");
            seen[answer.0 as usize] += 1;
        }
    }
    assert!([0, 1, 2, 6, 7, 8].iter().all(|number| seen[*number] > 5), "{seen:?}");
}

/// What is passed is read as the checker reads it, and nothing behind the tile; in
/// form 2 the lengths alone.
#[test]
fn the_call_agrees_on_damaged_tables() {
    let mut random = Random(51);
    let mut seen = [0; 9];
    for (plant, bytes, table) in made_tables(52, 150) {
        for _ in 0..60 {
            let other = damaged(&mut random, &table);
            let reading = reading_in(&plant.edges.r_lo, &plant.edges.r_hi, plant.n as usize, &mut random);
            let answer = control(&bytes, &other, State { place: 0, left: 0 }, reading);
            let shown = answer.map(|(mode, next)| (mode, next.place, next.left));
            let shown = shown.map_err(|refusal| told::<()>(Err(refusal)));
            assert_eq!(shown, slow_idle(&plant, &other, &reading), "{plant:?} {other:?} {reading:?}");
            seen[shown.map_or_else(|told| told.0, |_| 0) as usize] += 1;
        }
    }
    assert!([0, 1, 2, 6].iter().all(|number| seen[*number] > 5), "{seen:?}");
}

#[test]
fn the_controller_keeps_the_rooms() {
    let mut random = Random(6);
    let mut longest_seen = 0;
    for (plant, bytes, table) in made_tables(60, 250) {
        let (edges, n) = (plant.edges, plant.n as usize);
        let holds = |lo: &[i64; 4], hi: &[i64; 4], x: &[i64; 4]| {
            (0..n).all(|i| lo[i] <= x[i] && x[i] <= hi[i])
        };
        for _ in 0..10 {
            let mut reading = reading_in(&edges.r_lo, &edges.r_hi, n, &mut random);
            let mut state = State { place: 0, left: 0 };
            let mut since_r = 0;
            for _ in 0..60 {
                let (mode, next) = control(&bytes, &table, state, reading).expect("an answer");
                reading = next_reading(&plant, mode, &reading, &mut random);
                since_r += 1;
                assert!(holds(&edges.s_lo, &edges.s_hi, &reading), "left S");
                assert!(since_r <= plant.k, "not back in time");
                assert!(next.left < plant.k);
                if next == (State { place: 0, left: 0 }) {
                    assert!(holds(&edges.r_lo, &edges.r_hi, &reading), "idle outside R");
                    longest_seen = longest_seen.max(since_r);
                    since_r = 0;
                }
                state = next;
            }
        }
    }
    assert!(longest_seen >= 3, "{longest_seen}");
}

#[test]
fn the_controller_answers_the_pattern_of_the_tile() {
    let mut random = Random(7);
    for (plant, bytes, table) in made_tables(70, 200) {
        let tiles = slow_tiles(&plant, &r_of(&plant), &table);
        for _ in 0..30 {
            let n = plant.n as usize;
            let reading = reading_in(&plant.edges.r_lo, &plant.edges.r_hi, n, &mut random);
            let holds = |tile: &&SlowTile| inside(&wide(&reading, &reading, n), &tile.of);
            let SlowTile { place, pattern, .. } = tiles.iter().find(holds).expect("a tile");
            let mut state = State { place: 0, left: 0 };
            for (t, mode) in pattern.iter().enumerate() {
                let at = if t == 0 {
                    reading
                } else {
                    reading_in(&plant.edges.s_lo, &plant.edges.s_hi, n, &mut random)
                };
                let left = (pattern.len() - t - 1) as u64;
                let next_place = if left == 0 { 0 } else { (place + t + 2) as u64 };
                let expected = (*mode, State { place: next_place, left });
                assert_eq!(control(&bytes, &table, state, at), Ok(expected));
                state = expected.1;
            }
        }
    }
}

#[test]
fn the_controller_stands_any_table_and_state() {
    let mut random = Random(8);
    let mut answers = [0; 13];
    for (plant, bytes, table) in made_tables(80, 100) {
        for _ in 0..200 {
            let mut table = table.clone();
            for _ in 0..random.within(0, 3) {
                let at = random.within(0, table.len() as i64 - 1) as usize;
                table[at] = random.next() as u8 & 0x83;
            }
            table.truncate(random.within(0, 3 * table.len() as i64) as usize);
            let place = [0, 2, random.next() >> 60, random.next()][random.within(0, 3) as usize];
            let left = [0, 0, 1, random.next() >> 61, random.next()][random.within(0, 4) as usize];
            let n = plant.n as usize;
            let reading = reading_in(&plant.edges.s_lo, &plant.edges.s_hi, n, &mut random);
            match control(&bytes, &table, State { place, left }, reading) {
                Ok((mode, next)) => {
                    assert!(u64::from(mode) < plant.modes);
                    assert!(next.left < plant.k && (next.left == 0) == (next.place == 0));
                    answers[0] += 1;
                }
                Err(refusal) => {
                    assert_eq!(refusal.step, 0);
                    answers[refusal.number as usize] += 1;
                }
            }
        }
    }
    assert!([0, 1, 2, 6, 11, 12].iter().all(|number| answers[*number] > 20), "{answers:?}");
    let others = [3, 4, 5, 7, 8, 9, 10];
    assert!(others.iter().all(|number| answers[*number] == 0), "{answers:?}");
}

// ---- floats ----

/// The nearest whole number of factor * value from the float's decimal digits
/// (its 1,074 places show it exactly), halves away from zero.
fn decimal_nearest(factor: u64, value: f64) -> Option<i128> {
    let text = format!("{:.1080}", value.abs());
    let point = text.find('.')?;
    let mut digits: Vec<u64> = text.bytes().filter(|b| *b != b'.').map(|b| (b - b'0') as u64).collect();
    let mut carry = 0;
    for digit in digits.iter_mut().rev() {
        let product = *digit * factor + carry;
        (*digit, carry) = (product % 10, product / 10);
    }
    let whole = digits[..point].iter().map(|digit| digit.to_string()).collect::<String>();
    let whole: i128 = format!("{carry}{whole}").parse().ok()?;
    let whole = whole + i128::from(digits[point] >= 5);
    Some(if value < 0.0 { -whole } else { whole })
}

fn nearest_agrees(factor: u64, value: f64) {
    let expected = decimal_nearest(factor, value).filter(|whole| whole.abs() < 1 << 64);
    assert_eq!(nearest(factor as u32, value), expected, "{factor} * {value:e}");
}

#[test]
fn nearest_agrees_with_the_decimal_digits() {
    assert_eq!(decimal_nearest(3, 0.166_666_666_666_666_66), Some(0));
    assert_eq!(decimal_nearest(10, 0.25), Some(3));
    let mut random = Random(9);
    let specials = [0.0, -0.0, 0.5, 1.5, 2.5, f64::MAX, f64::MIN_POSITIVE, f64::from_bits(1), 1e19, 1e22];
    for value in specials {
        for factor in [1, 2, 3, 10_000, 10_000_000] {
            nearest_agrees(factor, value);
            nearest_agrees(factor, -value);
        }
    }
    for _ in 0..4_000 {
        let factor = random.within(1, 10_000_000) as u64;
        // Beside a half: (m + 1/2) / factor and the floats on both sides of it.
        let bits_of_m = random.within(1, 40);
        let m = random.within(0, 1 << bits_of_m);
        let near = (m as f64 + 0.5) / factor as f64;
        let bits = near.to_bits() + random.within(0, 2) as u64 - 1;
        let sign = if random.within(0, 1) == 0 { 1.0 } else { -1.0 };
        nearest_agrees(factor, sign * f64::from_bits(bits));
        // Any mantissa, exponents from far below to far above the ranges.
        let exponent = (1023 + random.within(-130, 75)) as u64;
        let bits = random.next() & 0x800F_FFFF_FFFF_FFFF | exponent << 52;
        nearest_agrees(factor, f64::from_bits(bits));
    }
    for value in [f64::NAN, f64::INFINITY, f64::NEG_INFINITY] {
        assert_eq!(nearest(1, value), None);
    }
}

/// A float of three decimal digits, now and then a large or tiny one.
fn some_float(random: &mut Random, most: i64) -> f64 {
    let plain = random.within(0, most * 1000) as f64 / 1000.0;
    match random.within(0, 400) {
        0 => plain * 1e6,
        1 => plain * 1e160,
        2 => plain * 1e-30,
        _ => plain,
    }
}

fn some_sheet(random: &mut Random) -> Vec<Field> {
    let n = random.within(1, 4) as usize;
    let (r, q) = (random.within(1, 1_000) as u64, random.within(1, 10_000));
    let mut fields = vec![U(1), U(n as u64), U(r), U(q as u64), U(2), U(1)];
    for _ in 0..n {
        let (lo, far) = (random.within(-500, 500), random.within(0, 300));
        fields.extend([lo, lo + far, lo - far, lo + 2 * far].map(S));
    }
    for _ in 0..n {
        let lo = random.within(-q, q);
        let low = if random.within(0, 60) == 0 { -999_999_900 } else { lo };
        let high = if random.within(0, 60) == 0 { 999_999_900 } else { lo + q };
        fields.extend([low, high].map(S));
    }
    fields.push(F(0.001 + some_float(random, 1)));
    fields.push(F(some_float(random, 30) - 10.0));
    for _ in 0..n {
        (0..n).for_each(|_| fields.push(F(some_float(random, 1))));
        match random.within(0, 2) {
            0 => fields.push(U(0)),
            1 => fields.extend([U(1), F(some_float(random, 1)), F(some_float(random, 60))]),
            _ => fields.extend([U(2), F(some_float(random, 9) - 4.0)]),
        }
    }
    fields
}

/// The floats of a mode's row i: its entries and its offset.
fn float_row(sheet: &Sheet, mode: usize, i: usize) -> (Vec<f64>, f64) {
    let n = sheet.n as usize;
    let room = sheet.rooms[i];
    let g = &room.exchange[..n - 1];
    let mut s = g.iter().fold(room.loss, |s, g| s + g);
    let mut entries: Vec<f64> = g.iter().map(|g| sheet.time * g).collect();
    // The t-th room with an emitter is switched by bit t.
    let with_one: Vec<usize> =
        (0..n).filter(|i| sheet.rooms[*i].emitter != Emitter::None).collect();
    let on = with_one.iter().enumerate().any(|(t, room)| *room == i && mode & (1 << t) != 0);
    let flow = room.loss * sheet.outside;
    let mut c = sheet.time * flow;
    match room.emitter {
        Emitter::Heater { p, water } if on => {
            let heat = p * water;
            c += sheet.time * heat;
            s += p;
        }
        Emitter::Steady { rate } if on => c += sheet.time * rate,
        _ => {}
    }
    let part = sheet.time * s;
    entries.insert(i, 1.0 - part);
    (entries, c)
}

/// Every number of the plant's file with the limit it must keep; None where it
/// is not finite.
fn slow_plant(sheet: &Sheet) -> Vec<(Option<i128>, i128)> {
    let n = sheet.n as usize;
    let emitters = (0..n).filter(|i| sheet.rooms[*i].emitter != Emitter::None).count() as u32;
    let modes = 2_usize.pow(emitters);
    let header = [1, sheet.n as i128, modes as i128, sheet.q as i128, 2, 1];
    let mut numbers: Vec<(Option<i128>, i128)> = header.map(|x| (Some(x), 10_000)).to_vec();
    let e = &sheet.edges;
    for i in 0..n {
        let edges = [e.r_lo[i], e.r_hi[i], e.s_lo[i], e.s_hi[i]];
        numbers.extend(edges.map(|x| (Some(x as i128), 1_000_000)));
    }
    let m = (0..n).flat_map(|i| [e.s_lo[i], e.s_hi[i]]).map(|x| x.abs() as i128).max();
    let by = least_at_or_above(n as i128 * m.expect("S") + 1, 2);
    for i in 0..n {
        let ends = [sheet.band.lo[i] as i128 - by, sheet.band.hi[i] as i128 + by];
        numbers.extend(ends.map(|x| (Some(x), 1_000_000_000)));
    }
    let whole = |factor: u64, x: f64| if x.is_finite() { decimal_nearest(factor, x) } else { None };
    for mode in 0..modes {
        for i in 0..n {
            let (entries, c) = float_row(sheet, mode, i);
            numbers.extend(entries.iter().map(|a| (whole(sheet.q, *a), 20_000)));
            numbers.push((whole(sheet.q * sheet.r, c), 10_000_000_000));
        }
    }
    numbers
}

#[test]
fn sheets_agree_with_the_slow_plant() {
    let mut random = Random(10);
    let (mut made, mut refused) = (0, 0);
    for _ in 0..500 {
        let fields = some_sheet(&mut random);
        let bytes = file(&fields);
        let n = fields[6..].iter().take_while(|field| matches!(field, S(_))).count() / 6;
        let sheet = sheet_values(&fields, n);
        let numbers = slow_plant(&sheet);
        let kept = |(x, limit): &(Option<i128>, i128)| x.is_some_and(|x| x.abs() <= *limit);
        let mut buffer = marked(1_183);
        let answer = sheet_to_plant(&bytes, &mut buffer);
        if let Some(place) = numbers.iter().position(|number| !kept(number)) {
            assert_eq!(told(answer), (14, place as u64, 0), "{sheet:?}");
            assert_eq!(told(read_sheet(&bytes)), (14, place as u64, 0));
            refused += 1;
            continue;
        }
        let values = numbers.iter().map(|number| number.0.expect("kept") as i64);
        let plant: Vec<Field> =
            values.enumerate().map(|(at, x)| if at < 6 { U(x as u64) } else { S(x) }).collect();
        let expected = file(&plant);
        assert_eq!(answer, Ok(expected.len()), "{sheet:?}");
        assert_eq!(buffer[..expected.len()], expected, "{sheet:?}");
        assert_eq!(plant_of_sheet(&sheet), read_plant(&expected));
        let mut written = marked(bytes.len());
        assert_eq!(write_sheet(&sheet, &mut written), Ok(bytes.len()));
        assert_eq!(written, bytes);
        assert_eq!(read_sheet(&bytes), Ok(sheet));
        made += 1;
    }
    assert!(made > 200 && refused > 30, "{made} {refused}");
}

/// value * 2^80 of a float no finer than that.
fn scaled(value: f64) -> i128 {
    let two_40 = 2.0_f64.powi(40);
    let high = (value * two_40).trunc();
    let low = (value * two_40 - high) * two_40;
    assert_eq!(low, low.trunc(), "{value:e} is too fine");
    high as i128 * (1 << 40) + low as i128
}

#[test]
fn what_the_floats_allow_the_plant_allows() {
    let mut random = Random(11);
    let mut allowed = 0;
    for _ in 0..400 {
        let n = random.within(1, 3) as usize;
        let q = random.within(1, 60);
        let heaters = random.within(0, 7);
        let mut fields = vec![U(1), U(n as u64), U(10), U(q as u64), U(1), U(0)];
        (0..n).for_each(|_| fields.extend([100, 300, -1_500, 2_000].map(S)));
        (0..n).for_each(|_| fields.extend([-q, q].map(S)));
        // Nothing below 2^-10, so no product's last bit is below 2^-80.
        let mut part = || F(random.within(1, 1_000) as f64 / 1_001.0 + 0.001);
        fields.extend([part(), part()]);
        for i in 0..n {
            (0..n).for_each(|_| fields.push(part()));
            match heaters >> i & 1 {
                1 => fields.extend([U(1), part(), part()]),
                _ => fields.extend([U(2), part()]),
            }
        }
        let sheet = sheet_values(&fields, n);
        let plant = plant_of_sheet(&sheet).expect("a plant");
        for _ in 0..40 {
            let x = reading_in(&sheet.edges.s_lo, &sheet.edges.s_hi, n, &mut random);
            let wide_x: Vec<i128> = x[..n].iter().map(|x| *x as i128).collect();
            let mode = random.within(0, plant.modes as i64 - 1) as usize;
            for i in 0..n {
                let (entries, c) = float_row(&sheet, mode, i);
                let sum: i128 = entries.iter().zip(&wide_x).map(|(a, x)| scaled(*a) * x).sum();
                let exact = q as i128 * (sum + 10 * scaled(c));
                let one = 1_i128 << 80;
                let (w_lo, w_hi) = (sheet.band.lo[i] as i128, sheet.band.hi[i] as i128);
                let from = (exact / one) / q as i128;
                for y in from - 3..=from + 3 {
                    let apart = q as i128 * y * one - exact;
                    if apart >= w_lo * one && apart <= w_hi * one {
                        let apart = q as i128 * y - row_value(&plant, mode, i, &wide_x);
                        assert!(apart >= plant.bands[mode].lo[i] as i128);
                        assert!(apart <= plant.bands[mode].hi[i] as i128);
                        allowed += 1;
                    }
                }
            }
        }
    }
    assert!(allowed > 10_000, "{allowed}");
}

#[test]
fn plants_written_are_plants_read() {
    let mut random = Random(12);
    for _ in 0..2_000 {
        let plant = pulling_plant(&mut random);
        let n = plant.n as usize;
        let header = [1, plant.n, plant.modes, plant.q, plant.k, plant.d];
        let mut fields: Vec<Field> = header.map(U).to_vec();
        let e = &plant.edges;
        for i in 0..n {
            fields.extend([e.r_lo[i], e.r_hi[i], e.s_lo[i], e.s_hi[i]].map(S));
        }
        (0..n).for_each(|i| fields.extend([plant.bands[0].lo[i], plant.bands[0].hi[i]].map(S)));
        let count = plant.modes as usize * n * (n + 1);
        fields.extend(plant.coefficients[..count].iter().map(|x| S(*x)));
        let bytes = file(&fields);
        assert_eq!(plant_bytes(&plant), bytes);
        assert_eq!(read_plant(&bytes), Ok(plant));
    }
}
