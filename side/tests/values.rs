//! The readers and writers that take or answer values, side by side: answer,
//! every value and every byte of the buffer. Files read: seeded, spoiled, cut
//! and damaged. Values written: seeded, and one at a time at its extremes, at
//! every position, in buffers too short, just long enough and longer. A plant's
//! bands and coefficients are lent in slices shorter than they are, as long and
//! longer. Each number that a function can tell is seen, and no other.

mod batch;

use second::band::Band;
use second::edges::Edges;
use second::plant::Plant;
use second::sheet::{Emitter, Room, Sheet};
use side::common::{file, in_form_2, line_13, p_fields, plant_values, sheet_values, told, two_room_sheet, two_rooms, Field, S, U};
use side::inputs::{damaged, other_forms, plant_fields, random, rounds, sheet_fields, spoiled, A, B, BAND, EDGE};
use side::seen::{written, Numbers};
use side::Told;

fn rooms(fields: &[Field]) -> usize {
    let U(n) = fields[1] else { panic!("no n") };
    n as usize
}

/// Each number that can be told came, no other did, and there were many comparisons.
fn all_seen(name: &str, numbers: &Numbers, can_be: &[usize]) {
    let total: usize = numbers.iter().sum();
    println!("{name}: {total} comparisons, {numbers:?}");
    for (number, times) in numbers.iter().enumerate() {
        assert_eq!(*times > 20, can_be.contains(&number), "{name} told {number} {times} times");
    }
    assert!(total >= 100_000, "{name}: {total} comparisons");
}

// ---- reading

/// What stands in every number that is lent before a read.
const MARK: i64 = -77;

/// A read into slices of these lengths: a finished one leaves as many of the plant's own numbers as there is room for, and what stands behind them as it
/// was; a refused one leaves zeros.
fn read_plant_into(seen: &mut Numbers, bytes: &[u8], lengths: [usize; 2]) -> (Told, Plant) {
    let [mut bands, mut coefficients] = lengths.map(|length| vec![MARK; length]);
    let (answer, header) = batch::read_plant(bytes, &mut bands, &mut coefficients);
    let read = second::plant::read_plant(bytes);
    assert_eq!(answer, told(read.as_ref().map_err(|refusal| *refusal)), "plant {bytes:?}");
    let behind = if read.is_ok() { MARK } else { 0 };
    let plant = read.unwrap_or(Plant::ZEROS);
    assert_eq!(header, Plant { bands: vec![], coefficients: vec![], ..plant.clone() }, "plant {bytes:?}");
    for (lent, own) in [(bands, batch::flat_bands(&plant)), (coefficients, plant.coefficients.clone())] {
        let wanted: Vec<i64> = own.into_iter().chain(std::iter::repeat(behind)).take(lent.len()).collect();
        assert_eq!(lent, wanted, "plant {bytes:?}, {lengths:?} numbers lent");
    }
    seen[answer.0 as usize] += 1;
    (answer, plant)
}

/// How many bands' ends and coefficients a plant of these bytes has.
fn own_numbers(bytes: &[u8]) -> [usize; 2] {
    let plant = second::plant::read_plant(bytes).unwrap_or(Plant::ZEROS);
    [2 * plant.rooms() * plant.bands.len(), plant.coefficients.len()]
}

/// With room for a few numbers more than there are.
fn read_plant(seen: &mut Numbers, bytes: &[u8]) -> (Told, Plant) {
    read_plant_into(seen, bytes, own_numbers(bytes).map(|length| length + 3))
}

#[test]
fn plants_read() {
    let (mut random, mut seen) = (random(10), Numbers::default());
    let mut plants = vec![p_fields(), two_rooms(), in_form_2(&p_fields()), in_form_2(&two_rooms()), longest_plant(1, 16), longest_plant(2, 16)];
    plants.extend((0..rounds(300)).map(|_| plant_fields(&mut random)));
    for fields in plants {
        let bytes = file(&fields);
        for other in other_forms(&fields) {
            read_plant(&mut seen, &other);
        }
        assert_eq!(read_plant(&mut seen, &bytes), ((0, 0, 0), plant_values(&fields, rooms(&fields))));
        for (other, wanted) in spoiled(&fields) {
            assert_eq!(read_plant(&mut seen, &other), (wanted, Plant::ZEROS));
        }
        damaged(&mut random, &bytes, |other| {
            read_plant(&mut seen, other);
        });
    }
    for form in [1, 2] {
        damaged(&mut random, &file(&longest_plant(form, 256)), |other| {
            read_plant(&mut seen, other);
        });
    }
    all_seen("read_plant", &seen, &[0, 1, 2, 3, 4, 5]);
}

/// Slices shorter than the plant's numbers, as long, and as long as those of any plant; and a refused plant.
#[test]
fn plants_read_into_slices_of_any_length() {
    let mut seen = Numbers::default();
    for fields in [p_fields(), in_form_2(&two_rooms()), longest_plant(1, 129), longest_plant(2, 256)] {
        let bytes = file(&fields);
        let own = own_numbers(&bytes);
        for bands in [0, 1, own[0] / 2, own[0] - 1, own[0], own[0] + 1, 2_049] {
            for coefficients in [0, 1, own[1] / 2, own[1] - 1, own[1], own[1] + 1, 5_121] {
                read_plant_into(&mut seen, &bytes, [bands, coefficients]);
                read_plant_into(&mut seen, &bytes[..bytes.len() - 1], [bands, coefficients]);
            }
        }
    }
    assert_eq!((seen[0], seen[1]), (4 * 49, 4 * 49));
}

const NO_SHEET: Sheet =
    Sheet { n: 0, r: 0, q: 0, k: 0, d: 0, edges: Edges::ZEROS, band: Band::ZEROS, time: 0.0, outside: 0.0, rooms: [Room::ZEROS; 4] };

fn read_sheet(seen: &mut Numbers, bytes: &[u8]) -> (Told, Sheet) {
    let (answer, sheet) = batch::read_sheet(bytes);
    let read = second::sheet::read_sheet(bytes);
    assert_eq!(answer, told(read), "sheet {bytes:?}");
    assert_eq!(batch::bits(&sheet), batch::bits(&read.unwrap_or(NO_SHEET)), "sheet {bytes:?}");
    seen[answer.0 as usize] += 1;
    (answer, sheet)
}

#[test]
fn sheets_read() {
    let (mut random, mut seen) = (random(11), Numbers::default());
    let mut sheets = vec![line_13(), two_room_sheet()];
    sheets.extend((0..rounds(300)).map(|_| sheet_fields(&mut random)));
    for fields in sheets {
        let bytes = file(&fields);
        let (answer, sheet) = read_sheet(&mut seen, &bytes);
        if answer.0 == 0 {
            assert_eq!(batch::bits(&sheet), batch::bits(&sheet_values(&fields, rooms(&fields))));
        }
        for (other, wanted) in spoiled(&fields) {
            assert_eq!(read_sheet(&mut seen, &other).0, wanted);
        }
        damaged(&mut random, &bytes, |other| {
            read_sheet(&mut seen, other);
        });
    }
    for _ in 0..rounds(5_000) {
        read_sheet(&mut seen, &file(&sheet_fields(&mut random)));
    }
    all_seen("read_sheet", &seen, &[0, 1, 2, 3, 4, 5, 13, 14]);
}

// ---- writing

/// What a number of the header is tried at: the end of each range and one beyond it, and where it takes more bytes than a number may have.
fn counts() -> Vec<u64> {
    let ends = [0, 2, 4, 6, 12, 16, 127, 255, 256, 1_000, 10_000, 1 << 32, (1 << 35) - 1, i64::MAX as u64, u64::MAX - 1];
    ends.iter().flat_map(|end| [*end, end + 1]).collect()
}

/// What a signed number is tried at, in the same way.
fn signed_counts() -> Vec<i64> {
    let ends = [0, 1, 63, 64, A, B, BAND, EDGE, 1 << 32, (1 << 34) - 1, i64::MAX - 1];
    let mut counts: Vec<i64> = ends.iter().flat_map(|end| [*end, end + 1, -end, -end - 1]).collect();
    counts.push(i64::MIN);
    counts
}

/// What a float is tried at, with either sign; the last is a signalling NaN.
fn floats() -> Vec<f64> {
    let signalling = f64::from_bits(0x7FF0_0000_0000_0001);
    let floats = [0.0, 5e-324, 1e-310, f64::MIN_POSITIVE, 0.5, 1.0, 1e7, f64::MAX, f64::INFINITY, f64::NAN, signalling];
    floats.iter().flat_map(|float| [*float, -float]).collect()
}

/// None, and each value of each kind at its extremes.
fn emitters() -> Vec<Emitter> {
    let mut emitters = vec![Emitter::None];
    for float in floats() {
        emitters.extend([
            Emitter::Heater { p: float, water: 40.0 },
            Emitter::Heater { p: 0.125, water: float },
            Emitter::Heater { p: float, water: float },
            Emitter::Steady { rate: float },
        ]);
    }
    emitters
}

/// What is given with one value in a place of it, each of these in turn.
fn each<T: Clone, Value: Clone>(of: &T, place: impl Fn(&mut T) -> &mut Value, values: &[Value], mut one: impl FnMut(&T)) {
    for value in values {
        let mut other = of.clone();
        *place(&mut other) = value.clone();
        one(&other);
    }
}

/// Each edge of R and S, beyond n too, at its extremes and about the others of its dimension.
fn edges_at_extremes(edges: &Edges, mut one: impl FnMut(&Edges)) {
    let sides: [fn(&mut Edges) -> &mut [i64; 4]; 4] = [|e| &mut e.r_lo, |e| &mut e.r_hi, |e| &mut e.s_lo, |e| &mut e.s_hi];
    for i in 0..4 {
        let of_room = sides.map(|side| side(&mut edges.clone())[i]);
        let mut values = signed_counts();
        values.extend(of_room.iter().flat_map(|edge| [edge.saturating_sub(1), *edge, edge + 1]));
        for side in sides {
            each(edges, |e| &mut side(e)[i], &values, &mut one);
        }
    }
}

/// Each end of a band in the same way, and about the narrowest band there may be.
fn band_at_extremes(band: &Band, q: u64, mut one: impl FnMut(&Band)) {
    let ends: [fn(&mut Band) -> &mut [i64; 4]; 2] = [|band| &mut band.lo, |band| &mut band.hi];
    let span = q.min(10_000) as i64 - 1;
    for i in 0..4 {
        let (lo, hi) = (band.lo[i], band.hi[i]);
        let mut values = signed_counts();
        for near in [lo, hi, lo + span, hi.saturating_sub(span)] {
            values.extend([near.saturating_sub(1), near, near + 1]);
        }
        for end in ends {
            each(band, |band| &mut end(band)[i], &values, &mut one);
        }
    }
}

/// Every position of so many, of very many about `most`: the step is odd, so that every column of a row comes.
fn positions(count: usize, most: usize) -> impl Iterator<Item = usize> {
    (0..count).step_by(count / most | 1)
}

/// The values before the modes one at a time, edges beyond n too; where N grows, the record lacks numbers.
fn beginnings_at_extremes(plant: &Plant, mut one: impl FnMut(&Plant)) {
    each(plant, |p| &mut p.form, &counts(), &mut one);
    each(plant, |p| &mut p.n, &counts(), &mut one);
    each(plant, |p| &mut p.modes, &counts(), &mut one);
    each(plant, |p| &mut p.q, &counts(), &mut one);
    each(plant, |p| &mut p.k, &counts(), &mut one);
    each(plant, |p| &mut p.d, &counts(), &mut one);
    edges_at_extremes(&plant.edges, |edges| one(&Plant { edges: *edges, ..plant.clone() }));
}

/// Those of the modes, beyond n and N too, which are ignored; in form 1 also the bands behind mode 0's, which no file has.
fn modes_at_extremes(plant: &Plant, mut one: impl FnMut(&Plant)) {
    for mode in positions(plant.bands.len(), 16) {
        band_at_extremes(&plant.bands[mode], plant.q, |band| each(plant, |p| &mut p.bands[mode], &[*band], &mut one));
    }
    for at in positions(plant.coefficients.len(), 320) {
        each(plant, |p| &mut p.coefficients[at], &signed_counts(), &mut one);
    }
}

fn sheets_at_extremes(sheet: &Sheet, mut one: impl FnMut(&Sheet)) {
    each(sheet, |h| &mut h.n, &counts(), &mut one);
    each(sheet, |h| &mut h.r, &counts(), &mut one);
    each(sheet, |h| &mut h.q, &counts(), &mut one);
    each(sheet, |h| &mut h.k, &counts(), &mut one);
    each(sheet, |h| &mut h.d, &counts(), &mut one);
    edges_at_extremes(&sheet.edges, |edges| one(&Sheet { edges: *edges, ..*sheet }));
    band_at_extremes(&sheet.band, sheet.q, |band| one(&Sheet { band: *band, ..*sheet }));
    each(sheet, |h| &mut h.time, &floats(), &mut one);
    each(sheet, |h| &mut h.outside, &floats(), &mut one);
    for i in 0..4 {
        each(sheet, |h| &mut h.rooms[i].loss, &floats(), &mut one);
        for j in 0..3 {
            each(sheet, |h| &mut h.rooms[i].exchange[j], &floats(), &mut one);
        }
        each(sheet, |h| &mut h.rooms[i].emitter, &emitters(), &mut one);
    }
}

fn write_plant(seen: &mut Numbers, plant: &Plant, length: usize) -> Told {
    let answer = written(plant, length, batch::write_plant, second::plant::write_plant);
    seen[answer.0 as usize] += 1;
    answer
}

fn write_sheet(seen: &mut Numbers, sheet: &Sheet, length: usize) -> Told {
    let answer = written(sheet, length, batch::write_sheet, second::sheet::write_sheet);
    seen[answer.0 as usize] += 1;
    answer
}

/// In a buffer with room; where that is written, also in one just long enough, and in one a byte shorter. The first answer.
fn about_its_length(mut write: impl FnMut(usize) -> Told) -> Told {
    let answer = write(second::LARGEST_PLANT + 1);
    if answer.0 == 0 {
        let length = answer.1 as usize;
        assert_eq!(write(length), answer);
        assert_eq!(write(length - 1), (10, 0, 0));
    }
    answer
}

const FAR: Edges = Edges { r_lo: [i64::MIN; 4], r_hi: [i64::MIN; 4], s_lo: [i64::MIN; 4], s_hi: [i64::MIN; 4] };
const FAR_BAND: Band = Band { lo: [i64::MIN; 4], hi: [i64::MIN; 4] };

/// Numbers of ten bytes wherever they do not end the file: the longest file that a plant's values would be.
fn far_plant(form: u64) -> Plant {
    let (bands, coefficients) = (vec![FAR_BAND; second::MOST_MODES], vec![i64::MIN; second::COEFFICIENTS]);
    Plant { form, n: 4, modes: second::MOST_MODES as u64, q: u64::MAX, k: u64::MAX, d: u64::MAX, edges: FAR, bands, coefficients }
}

/// The same of a sheet's.
const FAR_SHEET: Sheet = Sheet {
    n: 4,
    r: u64::MAX,
    q: u64::MAX,
    k: u64::MAX,
    d: u64::MAX,
    edges: FAR,
    band: FAR_BAND,
    time: f64::MAX,
    outside: f64::MAX,
    rooms: [Room { emitter: Emitter::Heater { p: f64::MAX, water: f64::MAX }, ..Room::ZEROS }; 4],
};

/// Every number as long as it can be: of 256 modes 17,504 bytes in form 1, 27,704 in form 2.
fn longest_plant(form: u64, modes: usize) -> Vec<Field> {
    let mut fields = [1, 4, modes as u64, 10_000, 6, 3].map(U).to_vec();
    fields.extend([-EDGE, EDGE].repeat(8).into_iter().map(S));
    fields.extend([-BAND, BAND].repeat(4).into_iter().map(S));
    fields.extend([A, -A, -A, A, -B].repeat(4 * modes).into_iter().map(S));
    if form == 1 { fields } else { in_form_2(&fields) }
}

#[test]
fn the_largest_plants() {
    let mut seen = Numbers::default();
    for (form, length) in [(1, 17_504), (2, second::LARGEST_PLANT)] {
        let fields = longest_plant(form, 256);
        let (plant, bytes) = (plant_values(&fields, 4), file(&fields));
        assert_eq!(bytes.len(), length);
        assert_eq!(read_plant(&mut seen, &bytes), ((0, 0, 0), plant.clone()));
        assert_eq!(write_plant(&mut seen, &plant, length), (0, length as u64, 0));
        assert_eq!(write_plant(&mut seen, &plant, length - 1), (10, 0, 0));
    }
}

#[test]
fn plants_written() {
    let (mut random, mut seen) = (random(12), Numbers::default());
    let mut plants = vec![p_fields(), two_rooms(), longest_plant(1, 16), longest_plant(2, 16), in_form_2(&p_fields())];
    plants.extend((0..rounds(10)).map(|_| plant_fields(&mut random)));
    let mut values = Vec::new();
    for fields in plants {
        let (plant, made) = (plant_values(&fields, rooms(&fields)), file(&fields).len());
        for length in 0..=made + 1 {
            let wanted = if length < made { (10, 0, 0) } else { (0, made as u64, 0) };
            assert_eq!(write_plant(&mut seen, &plant, length), wanted);
        }
        // what stands behind mode 0's band of form 1, and behind N's of form 2, and behind the rows
        let mut behind = plant.clone();
        behind.bands.resize(plant.bands.len() + 2, FAR_BAND);
        behind.bands[if plant.form == 1 { 1 } else { plant.mode_count() }..].fill(FAR_BAND);
        behind.coefficients.extend([i64::MIN; 30]);
        assert_eq!(write_plant(&mut seen, &behind, made), (0, made as u64, 0));
        values.push(behind);
    }
    // of the longest drafts nothing behind q is judged
    for plant in values.iter().chain(&[far_plant(1), far_plant(2)]) {
        beginnings_at_extremes(plant, |other| {
            about_its_length(|length| write_plant(&mut seen, other, length));
        });
    }
    for plant in values {
        modes_at_extremes(&plant, |other| {
            about_its_length(|length| write_plant(&mut seen, other, length));
        });
    }
    all_seen("write_plant", &seen, &[0, 1, 2, 3, 4, 5, 10]);
}

/// Slices that end anywhere, inside a band and inside a row too: what they lack is 0.
#[test]
fn plants_written_of_slices_of_any_length() {
    let mut written_ones = 0;
    for fields in [p_fields(), in_form_2(&two_rooms()), longest_plant(2, 5), longest_plant(1, 129)] {
        let plant = Plant { q: 1, ..plant_values(&fields, rooms(&fields)) };
        let (bands, n) = (batch::flat_bands(&plant), plant.rooms());
        for length in (0..=bands.len()).chain([plant.coefficients.len()]) {
            let lent = [&bands[..length.min(bands.len())], &plant.coefficients[..length.min(plant.coefficients.len())]];
            let end = |at: usize| lent[0].get(at).copied().unwrap_or(0);
            let mut whole = Plant { coefficients: lent[1].to_vec(), ..plant.clone() };
            for (u, i) in (0..plant.bands.len()).flat_map(|u| (0..n).map(move |i| (u, i))) {
                (whole.bands[u].lo[i], whole.bands[u].hi[i]) = (end(2 * (u * n + i)), end(2 * (u * n + i) + 1));
            }
            let answer = written(
                &(&whole, lent),
                second::LARGEST_PLANT,
                |(plant, [bands, coefficients]), buffer| batch::write_plant_of(plant, bands, coefficients, buffer),
                |(plant, _), buffer| second::plant::write_plant(plant, buffer),
            );
            written_ones += usize::from(answer.0 == 0);
        }
    }
    assert!(written_ones > 500, "{written_ones}");
}

#[test]
fn sheets_written() {
    let (mut random, mut seen) = (random(13), Numbers::default());
    let mut sheets = vec![line_13(), two_room_sheet()];
    sheets.extend((0..rounds(50)).map(|_| sheet_fields(&mut random)));
    let mut values = vec![FAR_SHEET];
    for fields in sheets {
        let sheet = sheet_values(&fields, rooms(&fields));
        for length in 0..=file(&fields).len() + 1 {
            write_sheet(&mut seen, &sheet, length);
        }
        values.push(sheet);
    }
    for sheet in values {
        sheets_at_extremes(&sheet, |other| {
            about_its_length(|length| write_sheet(&mut seen, other, length));
        });
    }
    for _ in 0..rounds(5_000) {
        let fields = sheet_fields(&mut random);
        about_its_length(|length| write_sheet(&mut seen, &sheet_values(&fields, rooms(&fields)), length));
    }
    all_seen("write_sheet", &seen, &[0, 1, 3, 4, 5, 10, 13, 14]);
}
