//! The inputs of every test here: seeded plants and sheets, each number of a
//! file spoiled with the refusal that document 01 tells of it, and files cut
//! and damaged; `tables` has the tables. HOACHULIM_SEED gives another seed,
//! HOACHULIM_ROUNDS a factor for longer runs.

use crate::common::{broken, encode, file, in_form_2, p_fields, two_rooms, with, Field, Random, Raw, F, S, U};
use crate::Told;
use second::plant::Plant;

fn from_environment(name: &str, otherwise: u64) -> u64 {
    std::env::var(name).map_or(otherwise, |value| value.parse().expect("a whole number"))
}

/// The seeded generator, another for each test.
pub fn random(test: u64) -> Random {
    Random(from_environment("HOACHULIM_SEED", 20_261_115).wrapping_add(test << 32))
}

/// So many rounds, times the factor.
pub fn rounds(usual: usize) -> usize {
    usual * from_environment("HOACHULIM_ROUNDS", 1) as usize
}

pub const EDGE: i64 = 1_000_000;
pub const BAND: i64 = 1_000_000_000;
pub const A: i64 = 20_000;
pub const B: i64 = 10_000_000_000;

impl Random {
    pub fn chance(&mut self, one_in: i64) -> bool {
        self.within(1, one_in) == 1
    }

    pub fn one<T: Copy>(&mut self, of: &[T]) -> T {
        of[self.within(0, of.len() as i64 - 1) as usize]
    }

    /// In lo ..= hi, or now and then one of the ends of the whole range.
    fn extreme(&mut self, wild: bool, lo: i64, hi: i64, limit: i64) -> i64 {
        if wild && self.chance(3) { self.one(&[-limit, limit, limit - 1]) } else { self.within(lo, hi) }
    }
}

/// R's sides, hi − lo of each: any; all alike, or all but one that is a count shorter, so that several are the longest; or one long, the others short.
fn lengths(random: &mut Random, n: i64) -> Vec<i64> {
    let (kind, long, own) = (random.within(0, 5), random.within(1, 40), random.within(0, n - 1));
    let length = |i| match kind {
        0 => long,
        1 => long - i64::from(i == own),
        2 if i == own => long,
        2 => random.within(0, 3),
        _ => random.within(0, 40),
    };
    (0..n).map(length).collect()
}

/// R, S and the one band of n rooms, sound; wild ones reach the ends of the ranges.
fn edges(random: &mut Random, wild: bool, n: i64, q: i64) -> Vec<Field> {
    let mut fields = Vec::new();
    for length in lengths(random, n) {
        let lo = random.extreme(wild, -40, 40, EDGE).min(EDGE - 40);
        let hi = lo + length;
        let s_lo = if wild && random.chance(3) { -EDGE } else { (lo - random.within(0, 30)).max(-EDGE) };
        let s_hi = if wild && random.chance(3) { EDGE } else { (hi + random.within(0, 30)).min(EDGE) };
        fields.extend([lo, hi, s_lo, s_hi].map(S));
    }
    fields.extend((0..n).flat_map(|_| band(random, wild, q)));
    fields
}

/// The ends of a room's band, sound.
fn band(random: &mut Random, wild: bool, q: i64) -> [Field; 2] {
    let lo = random.extreme(wild, -20, 20, BAND).min(BAND - q - 12);
    let hi = if wild && random.chance(3) { BAND } else { lo + q - 1 + random.within(0, 12) };
    [lo, hi].map(S)
}

/// A sound plant of either form.
pub fn plant_fields(random: &mut Random) -> Vec<Field> {
    let fields = if random.chance(5) { parted_fields(random) } else { form_1_fields(random) };
    if random.chance(2) { fields } else { with_own_bands(random, &fields) }
}

/// A form 1 plant as one of form 2: its band in each mode, then another in one mode, in one room of it, in every mode, or in none.
fn with_own_bands(random: &mut Random, fields: &[Field]) -> Vec<Field> {
    let mut fields = in_form_2(fields);
    let (n, modes, q) = (rooms(&fields), modes(&fields), width(&fields) + 1);
    let (mode, room) = (random.within(0, modes as i64 - 1) as usize, random.within(0, n as i64 - 1) as usize);
    let (kind, wild) = (random.within(0, 3), random.chance(8));
    for (u, i) in (0..modes).flat_map(|u| (0..n).map(move |i| (u, i))) {
        if [u == mode, (u, i) == (mode, room), true, false][kind as usize] {
            let at = band_at(&fields, u, i);
            fields[at..at + 2].clone_from_slice(&band(random, wild, q));
        }
    }
    fields
}

/// A sound plant of form 1, of 1 to 4 rooms. Half of them are steered: each mode draws towards a point in or about R, so that many have a table. Some of
/// one room or two have over a hundred modes, the first of them leading far away, so that tables have modes of two bytes.
fn form_1_fields(random: &mut Random) -> Vec<Field> {
    let (wild, steered, many) = (random.chance(8), random.chance(2), random.chance(30));
    let n = if many { random.one(&[1, 1, 2]) } else { random.within(1, 4) };
    let q = if wild { random.one(&[1, 2, 10_000]) } else { random.within(1, 20) };
    let (few, hundreds) = (random.within(1, 4), random.one(&[127, 128, 129, 255, 256]));
    let modes = if many { hundreds } else if random.chance(20) { 16 } else { few };
    let away = if many { random.within(0, modes - 1).max(random.within(0, modes - 1)) } else { 0 };
    let k = random.within(1, if modes > 4 { 2 } else { 7 - modes });
    let deep = !many && random.chance(4);
    let d = random.within(0, if deep { 6.min(12 / n) } else { 2 });
    let mut fields = vec![U(1), U(n as u64), U(modes as u64), U(q as u64), U(k as u64), U(d as u64)];
    fields.extend(edges(random, wild, n, q));
    fields.extend([vec![0; n as usize], vec![B]].concat().repeat((n * away) as usize).into_iter().map(S));
    for _ in away..modes {
        let r = fields[6..6 + 4 * n as usize].chunks(4).map(|room| (signed(&room[0]), signed(&room[1])));
        let towards: Vec<i64> = r.map(|(lo, hi)| random.within(lo - 3, hi + 3)).collect();
        for i in 0..n {
            let mut row: Vec<i64> = (0..n).map(|_| random.extreme(wild, -2, 2, A)).collect();
            let mut b = random.extreme(wild, -40, 40, B);
            if steered {
                row[i as usize] = random.within(0, q);
                b = (q * towards[i as usize] - row.iter().zip(&towards).map(|(a, x)| a * x).sum::<i64>()).clamp(-B, B);
            }
            fields.extend(row.into_iter().chain([b]).map(S));
        }
    }
    fields
}

/// A sound plant of form 1 whose tiles have to be small: each side of R has some parts, and each mode takes one part of every side over all of R, so that
/// no much larger box works. In some the parts are a count off.
fn parted_fields(random: &mut Random) -> Vec<Field> {
    let (n, q, reach, off) = (random.within(1, 4), random.within(1, 20), random.one(&[0, 0, 5, 30]), random.one(&[0, 0, 1]));
    let parts = parts(random, n);
    let modes: i64 = parts.iter().product();
    let (k, d) = (random.within(1, if modes > 4 { 2 } else { 3 }), depth_for(random, &parts));
    let mut fields = [1, n, modes, q, k, d].map(|number| U(number as u64)).to_vec();
    let alike = random.within(1, 8);
    let lengths = if random.chance(2) { lengths(random, n) } else { parts.iter().map(|parts| parts * alike - 1).collect() };
    let mut r = Vec::new();
    for length in lengths {
        let (lo, [below, above]) = (random.within(-60, 40), [0; 2].map(|_| random.within(0, reach)));
        r.push((lo, lo + length));
        fields.extend([lo, lo + length, lo - below, lo + length + above].map(S));
    }
    fields.extend([-(q / 2), q - 1 - q / 2].repeat(n as usize).into_iter().map(S));
    for mut mode in 0..modes {
        for (i, ((lo, hi), parts)) in r.iter().zip(&parts).enumerate() {
            let first = lo + mode % parts * (hi - lo + 1) / parts + random.within(-off, off);
            mode /= parts;
            fields.extend((0..n as usize).map(|j| S(if i == j { q * parts } else { 0 })).chain([S(q * (lo - parts * first))]));
        }
    }
    fields
}

/// How many parts each side has, a power of 2; at most sixteen of all sides.
fn parts(random: &mut Random, n: i64) -> Vec<i64> {
    let mut left = 16;
    let mut parts = Vec::new();
    for _ in 0..n {
        parts.push(random.one(&[1, 2, 4, 8]).min(left));
        left /= parts[parts.len() - 1];
    }
    parts.rotate_left(random.within(0, n - 1) as usize);
    parts
}

/// D, often just as much as one of the forms needs: all halvings there are, over n, and the most of one side.
fn depth_for(random: &mut Random, parts: &[i64]) -> i64 {
    let n = parts.len() as i64;
    let halvings = parts.iter().map(|parts| i64::from(parts.ilog2()));
    let (all, most) = (halvings.clone().sum::<i64>(), halvings.max().unwrap_or(0));
    let any = random.within(1, 6.min(12 / n));
    random.one(&[(all + n - 1) / n, most, any]).min(12 / n)
}

/// A float whose product with `factor` lies within a few ulps of a half, often of the one behind the limit.
fn near_half(random: &mut Random, factor: i64, limit: i64) -> f64 {
    let any = random.within(0, limit);
    let whole = random.one(&[0, 1, limit - 1, limit, any, any]);
    let near = (whole as f64 + 0.5) / factor as f64;
    f64::from_bits((near.to_bits() as i64 + random.within(-3, 3)) as u64)
}

/// A loss, an exchange or a p, never below 0: small ones, those that make time·amount a near half, and strange ones.
fn amount(random: &mut Random, q: i64, time: f64) -> f64 {
    match random.within(0, 19) {
        0 | 1 => finite(near_half(random, q, A) / time),
        2 => 1.0,
        3 => random.one(&[-0.0, 5e-324, 1e-310, f64::MIN_POSITIVE, 1e-200, 1e200, f64::MAX]),
        4 | 5 => 0.0,
        _ => random.within(0, 1_000) as f64 / 3_000.0,
    }
}

/// A heater's p: any amount, or one that makes the diagonal of its mode, 1 − time·(s + p), a near half.
fn heater(random: &mut Random, q: i64, time: f64, s: f64) -> f64 {
    if random.chance(3) {
        let sign = random.one(&[1.0, -1.0]);
        return finite((1.0 + sign * near_half(random, q, A)) / time - s).max(0.0);
    }
    amount(random, q, time)
}

/// A temperature or a rate: usual ones, those that make offset + scale·degrees a near half, and strange ones.
fn degrees(random: &mut Random, factor: i64, offset: f64, scale: f64) -> f64 {
    let sign = random.one(&[1.0, -1.0]);
    match random.within(0, 9) {
        0..=2 => finite((sign * near_half(random, factor, B) - offset) / scale),
        3 => sign * random.one(&[0.0, 5e-324, 1e-310, 1e200, f64::MAX]),
        4 => sign * 0.0,
        _ => sign * random.within(0, 600) as f64 / 10.0,
    }
}

fn finite(float: f64) -> f64 {
    if float.is_finite() { float } else { 0.0 }
}

/// A room's loss and exchanges; often the diagonal, 1 − time·(loss + exchanges), is a near half.
fn room(random: &mut Random, n: i64, q: i64, time: f64) -> Vec<f64> {
    let mut amounts: Vec<f64> = (0..n).map(|_| amount(random, q, time)).collect();
    if random.chance(4) {
        let sign = random.one(&[1.0, -1.0]);
        let exchanges: f64 = amounts[1..].iter().sum();
        amounts[0] = finite((1.0 + sign * near_half(random, q, A)) / time - exchanges).abs();
    }
    amounts
}

/// A sheet of 1 to 4 rooms whose numbers and floats are all in order; its plant may be out of range.
pub fn sheet_fields(random: &mut Random) -> Vec<Field> {
    let wild = random.chance(8);
    let n = random.within(1, 4);
    let (r, q) = (random.one(&[1, 3, 10, 100, 1_000]), random.one(&[1, 2, 3, 7, 1_024, 9_999, 10_000]));
    let depth = random.within(0, 3) as u64;
    let mut fields = vec![U(1), U(n as u64), U(r as u64), U(q as u64), U(random.within(1, 6) as u64), U(depth)];
    fields.extend(edges(random, wild, n, q));
    if random.chance(4) {
        // an end of a band that its widening leaves just inside or just outside the range
        let at = (6 + 4 * n + 2 * random.within(0, n - 1)) as usize;
        let last = (BAND - (n * largest_edge(&fields) + 2) / 2 + random.within(-1, 2)).min(BAND);
        let pair = random.one(&[[-last, 0], [-q, last]]);
        fields[at..at + 2].clone_from_slice(&pair.map(S));
    }
    let time = if wild { random.one(&[5e-324, 1e100]) } else { random.one(&[1.0, 1.0, 0.5, 5.0, 0.1, 0.7, 3.3]) };
    let rooms: Vec<Vec<f64>> = (0..n).map(|_| room(random, n, q, time)).collect();
    let outside = degrees(random, q * r, 0.0, time * rooms[0][0]);
    fields.extend([F(time), F(outside)]);
    for amounts in rooms {
        let offset = time * (amounts[0] * outside);
        let s = amounts.iter().sum();
        fields.extend(amounts.into_iter().map(F));
        match random.within(0, 2) {
            0 => fields.push(U(0)),
            1 => {
                let p = heater(random, q, time, s);
                fields.extend([U(1), F(p), F(degrees(random, q * r, offset, time * p))]);
            }
            _ => fields.extend([U(2), F(degrees(random, q * r, offset, time))]),
        }
    }
    fields
}

/// P, P' and two rooms, in form 1 and in form 2, and in form 2 with another band in the last mode.
pub fn papers_plants() -> Vec<Vec<u8>> {
    let p_prime = with(&with(&p_fields(), 8, S(180)), 9, S(240));
    let mut plants = Vec::new();
    for fields in [p_fields(), p_prime, two_rooms()] {
        let equal = in_form_2(&fields);
        let at = band_at(&equal, modes(&equal) - 1, 0) + 1;
        let wider = with(&equal, at, S(signed(&equal[at]) + 3));
        plants.extend([fields, equal, wider].iter().map(|fields| file(fields)));
    }
    plants
}

fn rooms(fields: &[Field]) -> usize {
    let U(n) = fields[1] else { panic!("no n") };
    n as usize
}

/// The modes of a plant that have a band of their own in its file; a form 1 plant and a sheet have one band, which is mode 0's.
fn modes(fields: &[Field]) -> usize {
    match fields[..3] {
        [U(2), _, U(modes)] => modes as usize,
        _ => 1,
    }
}

/// The least w hi − w lo, q − 1.
fn width(fields: &[Field]) -> i64 {
    let U(q) = fields[3] else { panic!("no q") };
    q as i64 - 1
}

/// Where w lo of a room stands, in form 2 that of a mode; w hi is behind it.
fn band_at(fields: &[Field], mode: usize, room: usize) -> usize {
    let n = rooms(fields);
    6 + 4 * n + mode * (2 * n + n * (n + 1)) + 2 * room
}

pub fn signed(field: &Field) -> i64 {
    let S(value) = field else { panic!("{field:?} is no signed number") };
    *value
}

/// M, the largest absolute edge of S.
fn largest_edge(fields: &[Field]) -> i64 {
    let of_s = fields[6..6 + 4 * rooms(fields)].chunks(4).flat_map(|room| &room[2..]);
    of_s.map(|edge| signed(edge).abs()).max().unwrap_or(0)
}

/// The least and the greatest that may stand at a number of a plant or a sheet; None for a float.
fn range(fields: &[Field], at: usize) -> Option<(i64, i64)> {
    let n = rooms(fields);
    let sheet = fields.iter().any(|field| matches!(field, F(_)));
    let of_pair = |limit: i64| (if at % 2 == 0 { -limit } else { signed(&fields[at - 1]) }, limit);
    Some(match at {
        _ if matches!(fields[at], F(_)) => return None,
        0 if sheet => (1, 1),
        0 => (1, 2),
        1 => (1, 4),
        2 => (1, if sheet { 1_000 } else { 256 }),
        3 => (1, 10_000),
        4 => (1, 6),
        5 => (0, 6.min(12 / n as i64)),
        _ if at < 6 + 4 * n => of_pair(EDGE),
        _ if in_mode(fields, at) < 2 * n => of_pair(BAND),
        _ if sheet => (0, 2),
        _ if (in_mode(fields, at) - 2 * n) % (n + 1) == n => (-B, B),
        _ => (-A, A),
    })
}

/// Which number behind the edges it is; in form 2 each mode counts from its own band on.
fn in_mode(fields: &[Field], at: usize) -> usize {
    let (first, next) = (band_at(fields, 0, 0), band_at(fields, 1, 0));
    if matches!(fields[0], U(2)) { (at - first) % (next - first) } else { at - first }
}

/// Whether a sheet's float may be below 0: outside and water temperature, and a rate.
fn any_sign(fields: &[Field], at: usize) -> bool {
    let first_room = 8 + 6 * rooms(fields);
    at + 1 == first_room || at > first_room && (matches!(fields[at - 1], U(2)) || matches!(fields[at - 2], U(1)))
}

/// What must not stand at a number of a file, with the number that tells of it.
fn wrong(fields: &[Field], at: usize) -> Vec<(Field, u64)> {
    let Some((least, greatest)) = range(fields, at) else {
        let mut floats = vec![f64::NAN, f64::INFINITY, -f64::INFINITY, f64::from_bits(0xFFF0_0000_0000_0001)];
        if !any_sign(fields, at) {
            floats.extend([-1.0, -5e-324, -f64::MAX]);
        }
        if at == 6 + 6 * rooms(fields) {
            floats.extend([0.0, -0.0]);
        }
        return floats.into_iter().map(|float| (F(float), 13)).collect();
    };
    let unfit = if at == 0 { 2 } else { 3 };
    let broken = broken(&fields[at]).into_iter().map(|field| (field, 1));
    broken.chain(outside(&fields[at], least, greatest).into_iter().map(|field| (field, unfit))).collect()
}

/// Numbers of a field's kind just outside its range, and ones that lie in it once their high bits are lost.
pub fn outside(field: &Field, least: i64, greatest: i64) -> Vec<Field> {
    let values = [least - 1, greatest + 1, (1 << 32) + greatest, (1 << 34) - 1];
    match field {
        U(_) => values.into_iter().filter(|value| *value >= 0).map(|value| U(value as u64)).collect(),
        _ => values.map(S).to_vec(),
    }
}

/// A plant or a sheet in order, with each of its numbers made wrong in every way, each dimension's 4 and each band's 5, and what is told of each.
pub fn spoiled(fields: &[Field]) -> Vec<(Vec<u8>, Told)> {
    let (bytes, places) = encode(fields);
    let mut all = Vec::new();
    for (at, place) in places[..fields.len()].iter().enumerate() {
        for (field, number) in wrong(fields, at) {
            all.push((file(&with(fields, at, field)), (number, *place, 0)));
        }
    }
    for behind in [0, 1, 0x80] {
        all.push(([&bytes[..], &[behind]].concat(), (3, bytes.len() as u64, 0)));
    }
    for i in 0..rooms(fields) {
        let r = 6 + 4 * i;
        if signed(&fields[r + 2]) > -EDGE {
            all.push((file(&with(fields, r, S(signed(&fields[r + 2]) - 1))), (4, i as u64, 0)));
        }
        if signed(&fields[r + 3]) < EDGE {
            all.push((file(&with(fields, r + 1, S(signed(&fields[r + 3]) + 1))), (4, i as u64, 0)));
        }
    }
    all.extend(narrow_bands(fields));
    all
}

/// Each band, of each mode and room, one count narrower than it may be.
fn narrow_bands(fields: &[Field]) -> Vec<(Vec<u8>, Told)> {
    let mut all = Vec::new();
    for (mode, i) in (0..modes(fields)).flat_map(|mode| (0..rooms(fields)).map(move |i| (mode, i))) {
        let at = band_at(fields, mode, i);
        let (lo, hi) = (signed(&fields[at]), signed(&fields[at + 1]));
        for narrow in [with(fields, at, S(hi - width(fields) + 1)), with(fields, at + 1, S(lo + width(fields) - 1))] {
            if width(fields) > 0 {
                all.push((file(&narrow), (5, mode as u64, i as u64)));
            }
        }
    }
    all
}

/// A plant's bytes with another first byte, the other form among them, and with a form of two bytes.
pub fn other_forms(fields: &[Field]) -> Vec<Vec<u8>> {
    let mut all: Vec<_> = [0, 1, 2, 3, 0x80, 129].map(|form| file(&with(fields, 0, Raw(vec![form])))).to_vec();
    all.extend([129, 130, 258].map(|form| file(&with(fields, 0, U(form)))));
    all
}

/// Every cut, every byte changed in a few ways, and bytes behind; of a long file some three hundred places.
pub fn damaged(random: &mut Random, bytes: &[u8], mut one: impl FnMut(&[u8])) {
    for at in (0..bytes.len()).step_by(bytes.len() / 300 + 1) {
        one(&bytes[..at]);
        for change in [1, 2, 6, 0x7F, 0x80, 0xFF, random.within(1, 255) as u8] {
            let mut other = bytes.to_vec();
            other[at] ^= change;
            one(&other);
        }
    }
    for behind in [0, 1, 0x80] {
        one(&[bytes, &[behind]].concat());
    }
}

/// A reading at, beside or between the edges of R and S, now and then as far off as can be.
pub fn any_reading(random: &mut Random, plant: &Plant) -> [i64; 4] {
    let e = &plant.edges;
    let far = random.chance(10);
    std::array::from_fn(|i| {
        let side = random.one(&[(e.r_lo[i], e.r_hi[i]), (e.r_lo[i], e.r_hi[i]), (e.s_lo[i], e.s_hi[i])]);
        match random.within(0, 9) {
            0 if far => random.one(&[i64::MIN, i64::MAX, 1 << 32, -1 << 32]),
            0 => side.0 - random.within(0, 1),
            1 => side.1 + random.within(0, 1),
            2 => side.0,
            3 => side.1,
            _ => random.within(side.0, side.1),
        }
    })
}

/// Idle, a state that may be, or one that cannot: place and left.
pub fn any_state(random: &mut Random, table: &[u8]) -> (u64, u64) {
    let left = random.within(0, 7) as u64;
    match random.within(0, 9) {
        0 => (u64::MAX - random.within(0, 7) as u64, left),
        1 => (2, random.one(&[u64::MAX, 1 << 32, left])),
        2..=5 => (random.within(0, table.len() as i64 + 1) as u64, left),
        _ => (0, 0),
    }
}
