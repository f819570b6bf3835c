//! The functions of crates/batch, called the way C calls them, with plants and
//! sheets as the second program holds them. Values go over as arrays. A plant's:
//! form, n, N, q, K, D; R lo, R hi, S lo, S hi, four each; the bands, that of mode
//! u in dimension i at 2(u·n + i), w hi behind w lo; the coefficients; these two in
//! slices of any length. A sheet's:
//! n, r, q, K, D; R lo, R hi, S lo, S hi, w lo, w hi, four each; time and outside
//! temperature, emitter numbers and rooms. What is to be filled is marked, so
//! that a value not handed over is noticed.

use second::band::Band;
use second::edges::Edges;
use second::plant::Plant;
use second::sheet::{Emitter, Room, Sheet};
use side::Told;

type PlantHeader = [u64; 6];
type PlantEdges = [[i64; 4]; 4];
type Header = [u64; 5];
type Bounds = [[i64; 4]; 6];
/// The emitters' numbers.
type Kinds = [u8; 4];
/// Loss, three exchanges and the emitter's own values.
type Rooms = [[f64; 6]; 4];

#[link(name = "batch", kind = "static")]
extern "C" {
    fn batch_read_plant(
        plant: *const u8,
        plant_length: u64,
        header: *mut PlantHeader,
        edges: *mut PlantEdges,
        bands: *mut i64,
        bands_length: u64,
        coefficients: *mut i64,
        coefficients_length: u64,
        out: *mut [u64; 2],
    ) -> u64;
    fn batch_write_plant(
        header: *const PlantHeader,
        edges: *const PlantEdges,
        bands: *const i64,
        bands_length: u64,
        coefficients: *const i64,
        coefficients_length: u64,
        buffer: *mut u8,
        buffer_length: u64,
        out: *mut [u64; 2],
    ) -> u64;
    fn batch_read_sheet(
        sheet: *const u8,
        sheet_length: u64,
        header: *mut Header,
        bounds: *mut Bounds,
        times: *mut [f64; 2],
        kinds: *mut Kinds,
        rooms: *mut Rooms,
        out: *mut [u64; 2],
    ) -> u64;
    fn batch_write_sheet(
        header: *const Header,
        bounds: *const Bounds,
        times: *const [f64; 2],
        kinds: *const Kinds,
        rooms: *const Rooms,
        buffer: *mut u8,
        buffer_length: u64,
        out: *mut [u64; 2],
    ) -> u64;
}

const MARK: u64 = 0xAAAA_AAAA;

fn bounds_of(e: &Edges, w: &Band) -> Bounds {
    [e.r_lo, e.r_hi, e.s_lo, e.s_hi, w.lo, w.hi]
}

fn edges_of([r_lo, r_hi, s_lo, s_hi]: PlantEdges) -> Edges {
    Edges { r_lo, r_hi, s_lo, s_hi }
}

/// The bands of a plant's modes, in n dimensions each.
pub fn flat_bands(plant: &Plant) -> Vec<i64> {
    let ends = |band: &Band| -> Vec<i64> { (0..plant.rooms()).flat_map(|i| [band.lo[i], band.hi[i]]).collect() };
    plant.bands.iter().flat_map(ends).collect()
}

fn kind_of(room: Room) -> u8 {
    match room.emitter {
        Emitter::None => 0,
        Emitter::Heater { .. } => 1,
        Emitter::Steady { .. } => 2,
    }
}

fn floats_of(room: Room) -> [f64; 6] {
    let [a, b, c] = room.exchange;
    let [first, second] = match room.emitter {
        Emitter::None => [0.0, 0.0],
        Emitter::Heater { p, water } => [p, water],
        Emitter::Steady { rate } => [rate, 0.0],
    };
    [room.loss, a, b, c, first, second]
}

fn room_of(kind: u8, [loss, a, b, c, first, second]: [f64; 6]) -> Room {
    let emitter = match (kind, first, second) {
        (0, 0.0, 0.0) => Emitter::None,
        (1, p, water) => Emitter::Heater { p, water },
        (2, rate, 0.0) => Emitter::Steady { rate },
        other => panic!("{other:?} is no emitter"),
    };
    Room { loss, exchange: [a, b, c], emitter }
}

/// What the library says of a plant's bytes, and the plant's values; those of its modes stand in what is lent.
pub fn read_plant(bytes: &[u8], bands: &mut [i64], coefficients: &mut [i64]) -> (Told, Plant) {
    let (mut header, mut edges, mut out) = ([MARK; 6], [[MARK as i64; 4]; 4], [MARK; 2]);
    let number = unsafe {
        batch_read_plant(
            bytes.as_ptr(),
            bytes.len() as u64,
            &mut header,
            &mut edges,
            bands.as_mut_ptr(),
            bands.len() as u64,
            coefficients.as_mut_ptr(),
            coefficients.len() as u64,
            &mut out,
        )
    };
    let [form, n, modes, q, k, d] = header;
    ((number, out[0], out[1]), Plant { form, n, modes, q, k, d, edges: edges_of(edges), ..Plant::ZEROS })
}

/// The file that the library writes of a plant's values: number, and length written or place, and step.
pub fn write_plant(plant: &Plant, buffer: &mut [u8]) -> Told {
    write_plant_of(plant, &flat_bands(plant), &plant.coefficients, buffer)
}

/// The same with these bands and coefficients in place of the plant's own.
pub fn write_plant_of(plant: &Plant, bands: &[i64], coefficients: &[i64], buffer: &mut [u8]) -> Told {
    let header = [plant.form, plant.n, plant.modes, plant.q, plant.k, plant.d];
    let Edges { r_lo, r_hi, s_lo, s_hi } = plant.edges;
    let (edges, mut out) = ([r_lo, r_hi, s_lo, s_hi], [MARK; 2]);
    let number = unsafe {
        batch_write_plant(
            &header,
            &edges,
            bands.as_ptr(),
            bands.len() as u64,
            coefficients.as_ptr(),
            coefficients.len() as u64,
            buffer.as_mut_ptr(),
            buffer.len() as u64,
            &mut out,
        )
    };
    (number, out[0], out[1])
}

/// What the library says of a sheet's bytes, and the sheet's values.
pub fn read_sheet(bytes: &[u8]) -> (Told, Sheet) {
    let (mut header, mut bounds, mut times) = ([MARK; 5], [[MARK as i64; 4]; 6], [f64::NAN; 2]);
    let (mut kinds, mut rooms) = ([MARK as u8; 4], [[f64::NAN; 6]; 4]);
    let mut out = [MARK; 2];
    let number =
        unsafe { batch_read_sheet(bytes.as_ptr(), bytes.len() as u64, &mut header, &mut bounds, &mut times, &mut kinds, &mut rooms, &mut out) };
    let ([n, r, q, k, d], [time, outside]) = (header, times);
    let [r_lo, r_hi, s_lo, s_hi, lo, hi] = bounds;
    let rooms = std::array::from_fn(|i| room_of(kinds[i], rooms[i]));
    let edges = edges_of([r_lo, r_hi, s_lo, s_hi]);
    ((number, out[0], out[1]), Sheet { n, r, q, k, d, edges, band: Band { lo, hi }, time, outside, rooms })
}

/// The file that the library writes of a sheet's values: number, and length written or place, and step.
pub fn write_sheet(sheet: &Sheet, buffer: &mut [u8]) -> Told {
    let header = [sheet.n, sheet.r, sheet.q, sheet.k, sheet.d];
    let (bounds, times) = (bounds_of(&sheet.edges, &sheet.band), [sheet.time, sheet.outside]);
    let (kinds, rooms) = (sheet.rooms.map(kind_of), sheet.rooms.map(floats_of));
    let mut out = [MARK; 2];
    let number = unsafe { batch_write_sheet(&header, &bounds, &times, &kinds, &rooms, buffer.as_mut_ptr(), buffer.len() as u64, &mut out) };
    (number, out[0], out[1])
}

/// Every value of a sheet as bits: minus zero is not zero.
pub fn bits(sheet: &Sheet) -> Vec<u64> {
    let mut bits = vec![sheet.n, sheet.r, sheet.q, sheet.k, sheet.d];
    bits.extend(bounds_of(&sheet.edges, &sheet.band).iter().flatten().map(|edge| *edge as u64));
    bits.extend([sheet.time, sheet.outside].map(f64::to_bits));
    for room in sheet.rooms {
        bits.push(kind_of(room).into());
        bits.extend(floats_of(room).map(f64::to_bits));
    }
    bits
}
