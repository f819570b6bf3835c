//! Slow ways of saying what the program says: images from all corners in 128
//! bits, patterns tried one by one, tables judged by a list of boxes still to
//! come; and the plants that the tests behind them draw.
#![allow(dead_code)]

pub mod calls;
pub mod plants;

pub use calls::*;

use crate::common::{chain_fields, file, groups, Random};
use second::band::Band;
use second::plant::{write_plant, Plant};
use second::start::start_make;

/// Number, place and step; zeros when done.
pub type Told = (u64, u64, u64);

/// A box as its low and its high edges.
pub type Wide = (Vec<i128>, Vec<i128>);

pub fn wide(lo: &[i64], hi: &[i64], n: usize) -> Wide {
    (lo[..n].iter().map(|x| *x as i128).collect(), hi[..n].iter().map(|x| *x as i128).collect())
}

pub fn inside(inner: &Wide, outer: &Wide) -> bool {
    inner.0.iter().zip(&outer.0).all(|(a, b)| a >= b)
        && inner.1.iter().zip(&outer.1).all(|(a, b)| a <= b)
}

/// The least y with q*y >= value, found by stepping.
pub fn least_at_or_above(value: i128, q: i128) -> i128 {
    let mut y = value / q;
    while y * q < value {
        y += 1;
    }
    while (y - 1) * q >= value {
        y -= 1;
    }
    y
}

/// The greatest y with q*y <= value.
pub fn greatest_at_or_below(value: i128, q: i128) -> i128 {
    -least_at_or_above(-value, q)
}

/// (A_u x + b_u)_i.
pub fn row_value(plant: &Plant, mode: usize, i: usize, x: &[i128]) -> i128 {
    let n = x.len();
    let first = mode * n * (n + 1) + i * (n + 1);
    let numbers = &plant.coefficients[first..first + n + 1];
    (0..n).map(|j| numbers[j] as i128 * x[j]).sum::<i128>() + numbers[n] as i128
}

/// The image from the values at all corners.
pub fn corner_image(plant: &Plant, mode: usize, of: &Wide) -> Wide {
    let n = of.0.len();
    let q = plant.q as i128;
    let mut made = (vec![], vec![]);
    for i in 0..n {
        let values = (0..1_usize << n).map(|corner| {
            let pick = |j: usize| if corner >> j & 1 == 1 { of.1[j] } else { of.0[j] };
            row_value(plant, mode, i, &(0..n).map(pick).collect::<Vec<_>>())
        });
        let values: Vec<i128> = values.collect();
        let least = values.iter().min().expect("corners") + plant.bands[mode].lo[i] as i128;
        let greatest = values.iter().max().expect("corners") + plant.bands[mode].hi[i] as i128;
        made.0.push(least_at_or_above(least, q));
        made.1.push(greatest_at_or_below(greatest, q));
    }
    made
}

/// Children: each splittable dimension doubles the list, lower halves first.
pub fn slow_children(of: &Wide) -> Vec<Wide> {
    let mut list = vec![of.clone()];
    for i in 0..of.0.len() {
        let (a, b) = (of.0[i], of.1[i]);
        if a < b {
            let m = greatest_at_or_below(a + b, 2);
            let mut lower = list.clone();
            lower.iter_mut().for_each(|child| child.1[i] = m);
            list.iter_mut().for_each(|child| child.0[i] = m + 1);
            lower.append(&mut list);
            list = lower;
        }
    }
    list
}

/// The two halves of the longest side, by counts, the first of the longest; the
/// box alone where every side is one count.
pub fn slow_halves(of: &Wide) -> Vec<Wide> {
    let n = of.0.len();
    let longest = (0..n).rev().max_by_key(|i| of.1[*i] - of.0[*i]).expect("a side");
    let mut only = (vec![0; n], vec![0; n]);
    (only.0[longest], only.1[longest]) = (of.0[longest], of.1[longest]);
    let put = |half: &Wide| {
        let mut child = of.clone();
        (child.0[longest], child.1[longest]) = (half.0[longest], half.1[longest]);
        child
    };
    slow_children(&only).iter().map(put).collect()
}

/// How a form of table splits a box, and how deep.
pub fn slow_split(form: u64, of: &Wide) -> Vec<Wide> {
    if form == 3 { slow_halves(of) } else { slow_children(of) }
}

pub fn slow_depth(form: u64, plant: &Plant) -> u64 {
    if form == 3 { plant.n * plant.d } else { plant.d }
}

/// The box R.
pub fn r_of(plant: &Plant) -> Wide {
    wide(&plant.edges.r_lo, &plant.edges.r_hi, plant.n as usize)
}

/// The box S.
pub fn s_of(plant: &Plant) -> Wide {
    wide(&plant.edges.s_lo, &plant.edges.s_hi, plant.n as usize)
}

/// Step and number of the tile rule's refusal, by the slow image.
pub fn slow_tile(plant: &Plant, goal: &Wide, of: &Wide, pattern: &[u8]) -> Option<(u8, u64)> {
    let mut here = of.clone();
    for (step, mode) in pattern.iter().enumerate() {
        here = corner_image(plant, *mode as usize, &here);
        if !inside(&here, &s_of(plant)) {
            return Some((7, step as u64 + 1));
        }
    }
    (!inside(&here, goal)).then_some((8, pattern.len() as u64))
}

/// All patterns of a length in mode order, each tried from its first step.
pub fn slow_pattern(plant: &Plant, goal: &Wide, of: &Wide) -> Option<Vec<u8>> {
    for length in 1..=plant.k as u32 {
        for code in 0..plant.modes.pow(length) {
            let digit = |t: u32| (code / plant.modes.pow(length - 1 - t) % plant.modes) as u8;
            let pattern: Vec<u8> = (0..length).map(digit).collect();
            if slow_tile(plant, goal, of, &pattern).is_none() {
                return Some(pattern);
            }
        }
    }
    None
}

/// The tree of a box in a form, None where there is no table.
pub fn slow_tree(form: u64, plant: &Plant, goal: &Wide, of: &Wide, depth: u64) -> Option<Vec<u8>> {
    if let Some(pattern) = slow_pattern(plant, goal, of) {
        let modes = pattern.iter().flat_map(|mode| groups(u128::from(*mode)));
        return Some([pattern.len() as u8].into_iter().chain(modes).collect());
    }
    let children = slow_split(form, of);
    if depth == 0 || children.len() == 1 {
        return None;
    }
    let mut trees = vec![];
    for child in children {
        trees.push(slow_tree(form, plant, goal, &child, depth - 1)?);
    }
    Some(slow_layout(form, &trees))
}

/// A split's bytes in a form, its children's given.
pub fn slow_layout(form: u64, trees: &[Vec<u8>]) -> Vec<u8> {
    let told = if form == 2 { &trees[..trees.len() - 1] } else { &[] };
    let lengths = told.iter().flat_map(|tree| groups(tree.len() as u128));
    [0].into_iter().chain(lengths).chain(trees.concat()).collect()
}

/// The defined table that covers `root` with patterns that end in `goal`.
pub fn slow_table(plant: &Plant, root: &Wide, goal: &Wide) -> Option<Vec<u8>> {
    slow_table_in(1, plant, root, goal)
}

/// The same in a form.
pub fn slow_table_in(form: u64, plant: &Plant, root: &Wide, goal: &Wide) -> Option<Vec<u8>> {
    let tree = slow_tree(form, plant, goal, root, slow_depth(form, plant))?;
    Some([&[form as u8, plant.n as u8], &tree[..]].concat())
}

/// A plant of numbers drawn around a small R, its coefficients still zeros.
pub fn plant_around_r(random: &mut Random) -> Plant {
    let n = random.within(1, 4) as usize;
    let (modes, k) = [(4, 3), (2, 5), (16, 2), (1, 6), (3, 4)][random.within(0, 4) as usize];
    let q = random.within(1, 40);
    let d = random.within(0, if n < 3 { 3 } else { 1 });
    let mut plant = Plant { form: 1, k, q: q as u64, d: d as u64, ..Plant::zeros(n as u64, modes) };
    let mut band = Band::default();
    for i in 0..n {
        let (lo, width) = (random.within(-60, 60), random.within(0, 24));
        let edges = &mut plant.edges;
        (edges.r_lo[i], edges.r_hi[i]) = (lo, lo + width);
        edges.s_lo[i] = lo - random.within(0, width + 2);
        edges.s_hi[i] = lo + width + random.within(0, width + 2);
        band.lo[i] = random.within(-q, 0);
        band.hi[i] = band.lo[i] + q - 1 + random.within(0, q / 2);
    }
    plant.bands.fill(band);
    plant
}

/// A plant that tables are not rare for: each mode either pulls quickly to a
/// point near R, or pushes slowly in the direction its bits tell.
pub fn pulling_plant(random: &mut Random) -> Plant {
    let plant = plant_around_r(random);
    pulling(plant, random)
}

/// A pulling plant of over a hundred modes, of which those below some mode lead
/// out of S, so that modes of two bytes come into its tables. For patterns of
/// more than one mode there are fewer of them, and few that do not.
pub fn many_modes_plant(random: &mut Random, k: u64) -> Plant {
    let drawn = plant_around_r(random);
    let modes = match k {
        1 => [127, 128, 129, 200, 255, 256][random.within(0, 5) as usize],
        _ => random.within(127, 131) as u64,
    };
    let mut plant = Plant { form: 1, q: drawn.q, k, d: drawn.d.min(2), edges: drawn.edges, ..Plant::zeros(drawn.n, modes) };
    plant.bands.fill(drawn.bands[0]);
    let mut plant = pulling(plant, random);
    let useful = match k {
        1 => random.within(0, modes as i64 - 1).max(random.within(0, modes as i64 - 1)) as usize,
        _ => modes as usize - random.within(2, 4) as usize,
    };
    let (n, far) = (plant.n as usize, plant.q as i64 * 1_000);
    for row in plant.coefficients[..useful * n * (n + 1)].chunks_mut(n + 1) {
        row.fill(0);
        row[n] = far;
    }
    plant
}

/// The rows of a plant's modes.
fn pulling(mut plant: Plant, random: &mut Random) -> Plant {
    let (n, q) = (plant.n as usize, plant.q as i64);
    let slow = random.within(0, 2) > 0;
    for u in 0..plant.modes as usize {
        let mut target = [0; 4];
        let mut push = [0; 4];
        for i in 0..n {
            let (lo, hi) = (plant.edges.r_lo[i], plant.edges.r_hi[i]);
            let far = random.within(0, (hi - lo) / 3);
            (target[i], push[i]) = match (slow, u >> i & 1) {
                (false, _) => (random.within(lo - 12, hi + 12), random.within(-1, 1)),
                (true, 0) => ((lo + hi) / 2, far),
                (true, _) => ((lo + hi) / 2, -far),
            };
        }
        for i in 0..n {
            let first = u * n * (n + 1) + i * (n + 1);
            let mut b = q * (target[i] + push[i]);
            for j in 0..n {
                let a = match (i == j, slow) {
                    (true, true) => random.within(3 * q / 4, q),
                    (true, false) => random.within(-q / 4, q),
                    (false, _) => random.within(-q / 12, q / 12),
                };
                plant.coefficients[first + j] = a;
                b -= a * target[j];
            }
            plant.coefficients[first + n] = b;
        }
    }
    plant
}

/// The same plant in form 2: a band of its own for each mode, for one mode only,
/// or the one band still in all of them.
pub fn with_own_bands(plant: &Plant, random: &mut Random) -> Plant {
    let mut other = Plant { form: 2, ..plant.clone() };
    let (modes, q) = (plant.modes as i64, plant.q as i64);
    let only = random.within(0, modes - 1) as usize;
    let kind = random.within(0, 4);
    for (u, band) in other.bands.iter_mut().enumerate() {
        if kind == 0 || kind == 1 && u != only {
            continue;
        }
        for i in 0..plant.n as usize {
            band.lo[i] += random.within(-q, q);
            band.hi[i] = band.lo[i] + q - 1 + random.within(0, q / 2);
        }
    }
    other
}

/// A plant of either form, of numbers at or near their limits.
pub fn extreme_plant(random: &mut Random, form: u64) -> Plant {
    let n = random.within(1, 4) as usize;
    let q = [1, 2, 9_999, 10_000][random.within(0, 3) as usize];
    let mut plant = Plant { form, k: 3, q, d: 1, ..Plant::zeros(n as u64, 2) };
    let mut edge = |limit: i64| {
        let near = random.within(-2, 2);
        [limit - near.abs(), near, near - limit.min(limit / 2), near.abs() - limit]
            [random.within(0, 3) as usize]
    };
    for i in 0..n {
        let mut sides = [edge(1_000_000), edge(1_000_000), edge(1_000_000), edge(1_000_000)];
        sides.sort_unstable();
        let edges = &mut plant.edges;
        [edges.s_lo[i], edges.r_lo[i], edges.r_hi[i], edges.s_hi[i]] = sides;
    }
    let mut band = || {
        let mut band = Band::default();
        for i in 0..n {
            let mut ends = [edge(1_000_000_000), edge(1_000_000_000)];
            ends.sort_unstable();
            (band.lo[i], band.hi[i]) = (ends[0], ends[1].max(ends[0] + q as i64 - 1));
        }
        band
    };
    let shared = band();
    plant.bands = vec![shared, if form == 1 { shared } else { band() }];
    for (number, slot) in plant.coefficients.iter_mut().enumerate() {
        *slot = edge(if number % (n + 1) == n { 10_000_000_000 } else { 20_000 });
    }
    plant
}

pub fn plant_bytes(plant: &Plant) -> Vec<u8> {
    let mut buffer = vec![0; second::LARGEST_PLANT];
    let length = write_plant(plant, &mut buffer).expect("a plant in order");
    buffer.truncate(length);
    buffer
}

/// All readings of a box.
pub fn points(of: &Wide) -> Vec<Vec<i128>> {
    let mut list = vec![vec![]];
    for (lo, hi) in of.0.iter().zip(&of.1) {
        let longer = |x: i128| {
            list.iter().map(move |point: &Vec<i128>| [point.clone(), vec![x]].concat())
        };
        list = (*lo..=*hi).flat_map(longer).collect();
    }
    list
}

/// A number of a table, None where it is broken.
pub fn slow_number(table: &[u8], place: usize) -> Option<(u64, usize)> {
    let length = 1 + table.iter().skip(place).take_while(|byte| **byte >= 128).count();
    let bytes = table.get(place..place + length)?;
    if length > 5 || (length > 1 && bytes[length - 1] == 0) {
        return None;
    }
    let value = bytes.iter().rev().fold(0, |sum, byte| sum * 128 + u64::from(byte % 128));
    Some((value, place + length))
}

/// The same, 1 where it is broken.
pub fn slow_number_or_1(table: &[u8], place: usize) -> Result<(u64, usize), Told> {
    slow_number(table, place).ok_or((1, place as u64, 0))
}

/// A tile of a table: its place, the place behind its first mode, its modes, its
/// box and how many splits lie above it.
#[derive(Clone, Debug, PartialEq)]
pub struct SlowTile {
    pub place: usize,
    pub second: usize,
    pub end: usize,
    pub pattern: Vec<u8>,
    pub of: Wide,
    pub depth: u64,
}

impl SlowTile {
    /// What a call that finds it answers: mode, place and left.
    pub fn answer(&self) -> (u8, u64, u64) {
        let left = self.pattern.len() as u64 - 1;
        (self.pattern[0], if left == 0 { 0 } else { self.second as u64 }, left)
    }
}

/// What is still to come in a table: a box with its depth and, where one was told,
/// its length with that number's place; or the end of one that began here.
enum ToCome {
    Box(Wide, u64, Option<(usize, u64)>),
    End(usize, (usize, u64)),
}

/// Reads a table by the list of boxes still to come and hands each tile to `with`,
/// which may refuse it or say that it is the last one wanted: where that one ends.
pub fn slow_walk(
    plant: &Plant,
    root: &Wide,
    table: &[u8],
    mut with: impl FnMut(SlowTile) -> Result<bool, Told>,
) -> Result<usize, Told> {
    let (form, mut at) = slow_header(plant, table)?;
    let mut to_come = vec![ToCome::Box(root.clone(), 0, None)];
    while let Some(next) = to_come.pop() {
        let (of, depth, length) = match next {
            ToCome::Box(of, depth, length) => (of, depth, length),
            ToCome::End(first, (_, length)) if (at - first) as u64 == length => continue,
            ToCome::End(_, (place, _)) => return Err((6, place as u64, 0)),
        };
        to_come.extend(length.map(|length| ToCome::End(at, length)));
        let (node, behind) = slow_number_or_1(table, at)?;
        if node == 0 {
            let children = slow_split(form, &of);
            if depth == slow_depth(form, plant) || children.len() == 1 {
                return Err((6, at as u64, 0));
            }
            let lengths;
            (lengths, at) = slow_lengths(table, behind, if form == 2 { children.len() - 1 } else { 0 })?;
            for (i, child) in children.into_iter().enumerate().rev() {
                to_come.push(ToCome::Box(child, depth + 1, lengths.get(i).copied()));
            }
            continue;
        }
        let tile = slow_tile_at(plant, table, at, &of, depth)?;
        at = tile.end;
        if with(tile)? {
            break;
        }
    }
    Ok(at)
}

/// The tile that stands at a place.
fn slow_tile_at(plant: &Plant, table: &[u8], place: usize, of: &Wide, depth: u64) -> Result<SlowTile, Told> {
    let (node, behind) = slow_number_or_1(table, place)?;
    if node > plant.k {
        return Err((6, place as u64, 0));
    }
    let (pattern, ends) = slow_modes(plant, table, behind, node)?;
    Ok(SlowTile { place, second: ends[0], end: ends[node as usize - 1], pattern, of: of.clone(), depth })
}

/// A table's form, and where its tree begins.
fn slow_header(plant: &Plant, table: &[u8]) -> Result<(u64, usize), Told> {
    let (form, place) = slow_number_or_1(table, 0)?;
    if ![1, 2, 3].contains(&form) {
        return Err((2, 0, 0));
    }
    let (n, tree) = slow_number_or_1(table, place)?;
    if n == plant.n { Ok((form, tree)) } else { Err((6, place as u64, 0)) }
}

/// So many modes from a place on, and where each of them ends.
fn slow_modes(plant: &Plant, table: &[u8], mut at: usize, count: u64) -> Result<(Vec<u8>, Vec<usize>), Told> {
    let (mut modes, mut ends) = (vec![], vec![]);
    for _ in 0..count {
        let (mode, next) = slow_number_or_1(table, at)?;
        if mode >= plant.modes {
            return Err((6, at as u64, 0));
        }
        modes.push(mode as u8);
        ends.push(next);
        at = next;
    }
    Ok((modes, ends))
}

/// The tiles of a sound table in file order.
pub fn slow_tiles(plant: &Plant, root: &Wide, table: &[u8]) -> Vec<SlowTile> {
    let mut tiles = vec![];
    let walked = slow_walk(plant, root, table, |tile| {
        tiles.push(tile);
        Ok(false)
    });
    assert_eq!(walked, Ok(table.len()));
    tiles
}

/// The checker's verdict: where the last tile ends, or the refusal.
pub fn slow_verdict(plant: &Plant, root: &Wide, goal: &Wide, table: &[u8]) -> Result<usize, Told> {
    slow_walk(plant, root, table, |tile| match slow_tile(plant, goal, &tile.of, &tile.pattern) {
        Some((number, step)) => Err((number.into(), tile.place as u64, step)),
        None => Ok(false),
    })
}

/// What the checker tells of a plant's own table.
pub fn slow_check(plant: &Plant, table: &[u8]) -> Told {
    match slow_verdict(plant, &r_of(plant), &r_of(plant), table) {
        Err(told) => told,
        Ok(end) if end < table.len() => (6, end as u64, 0),
        Ok(_) => (0, 0, 0),
    }
}

/// The lowest and the highest readings that may follow, dimension by dimension.
pub fn following(plant: &Plant, mode: u8, x: &[i64; 4]) -> Wide {
    let n = plant.n as usize;
    let (x, q) = (wide(x, x, n).0, plant.q as i128);
    let lowest = |i| least_at_or_above(row_value(plant, mode as usize, i, &x) + plant.bands[mode as usize].lo[i] as i128, q);
    let highest = |i| greatest_at_or_below(row_value(plant, mode as usize, i, &x) + plant.bands[mode as usize].hi[i] as i128, q);
    ((0..n).map(lowest).collect(), (0..n).map(highest).collect())
}

/// A reading that may follow: in each dimension the lowest, highest or any.
pub fn next_reading(plant: &Plant, mode: u8, x: &[i64; 4], random: &mut Random) -> [i64; 4] {
    let (lowest, highest) = following(plant, mode, x);
    let mut next = [i64::MIN; 4];
    for (slot, (lowest, highest)) in next.iter_mut().zip(lowest.into_iter().zip(highest)) {
        let (lowest, highest) = (lowest as i64, highest as i64);
        *slot = [lowest, highest, random.within(lowest, highest)][random.within(0, 3).min(2) as usize];
    }
    next
}

/// A reading of a box, often at its edges; numbers beyond n as far off as can be.
pub fn reading_in(lo: &[i64; 4], hi: &[i64; 4], n: usize, random: &mut Random) -> [i64; 4] {
    let mut reading = [i64::MAX; 4];
    for i in 0..n {
        reading[i] = [lo[i], hi[i], random.within(lo[i], hi[i])][random.within(0, 2) as usize];
    }
    reading
}


/// A plant with room around R, and a chain that grows from R by some counts a
/// box, some of them equal: R1..Rm.
pub fn cold_plant(random: &mut Random) -> (Plant, Vec<Wide>) {
    let mut plant = pulling_plant(random);
    for i in 0..plant.n as usize {
        plant.edges.s_lo[i] -= random.within(0, 30);
        plant.edges.s_hi[i] += random.within(0, 30);
    }
    let s = s_of(&plant);
    let mut here = r_of(&plant);
    let mut chain = vec![];
    for _ in 0..[0, 1, 2, 3, 8][random.within(0, 4) as usize] {
        let reach = [0, 2, 9][random.within(0, 2) as usize];
        for i in 0..here.0.len() {
            here.0[i] = (here.0[i] - i128::from(random.within(0, reach))).max(s.0[i]);
            here.1[i] = (here.1[i] + i128::from(random.within(0, reach))).min(s.1[i]);
        }
        chain.push(here.clone());
    }
    (plant, chain)
}

/// The chain's bytes.
pub fn chain_bytes(chain: &[Wide]) -> Vec<u8> {
    let sides = |of: &Wide| of.0.iter().zip(&of.1).map(|(lo, hi)| (*lo as i64, *hi as i64)).collect::<Vec<_>>();
    file(&chain_fields(&chain.iter().map(sides).collect::<Vec<_>>()))
}

/// A plant, its bytes, a chain that reaches beyond R, and a start file for both.
pub type Drawn = (Plant, Vec<u8>, Vec<Wide>, Vec<u8>);

/// Made start files, all their tables of form 1.
pub fn made_starts(seed: u64, wanted: usize) -> Vec<Drawn> {
    drawn_starts(seed, wanted, |_, bytes, chain, _| start_make(bytes, &chain_bytes(chain), 1).ok())
}

/// Start files with for each box a table of some form, as it is drawn.
pub fn mixed_starts(seed: u64, wanted: usize) -> Vec<Drawn> {
    drawn_starts(seed, wanted, |plant, _, chain, random| {
        let forms: Vec<u64> = (0..=chain.len()).map(|_| random.within(1, 3) as u64).collect();
        // With one form there is nothing mixed, and one room's trees are the same in all.
        let mixed = plant.n > 1 && forms.iter().any(|form| *form != forms[0]);
        if mixed { slow_start(plant, chain, &forms).ok() } else { None }
    })
}

/// Draws plants and chains until `start` has given so many start files.
fn drawn_starts(
    seed: u64,
    wanted: usize,
    start: impl Fn(&Plant, &[u8], &[Wide], &mut Random) -> Option<Vec<u8>>,
) -> Vec<Drawn> {
    let mut random = Random(seed);
    let mut drawn = vec![];
    for tried in 0.. {
        if drawn.len() == wanted {
            break;
        }
        assert!(tried < 1_000 * wanted, "{} of {wanted} start files", drawn.len());
        let (plant, chain) = cold_plant(&mut random);
        let bytes = plant_bytes(&plant);
        if chain.last().is_none_or(|last| *last == r_of(&plant)) {
            continue;
        }
        if let Some(start) = start(&plant, &bytes, &chain, &mut random) {
            drawn.push((plant, bytes, chain, start));
        }
    }
    drawn
}

/// Each of R0..Rm with the box that its patterns end in.
pub fn tasks(plant: &Plant, chain: &[Wide]) -> Vec<(Wide, Wide)> {
    let boxes = [&[r_of(plant)], chain].concat();
    let goals = [&boxes[..1], &boxes].concat();
    boxes.into_iter().zip(goals).collect()
}

/// The start file with a table of the form told for each of R0..Rm; else the
/// first index without one.
pub fn slow_start(plant: &Plant, chain: &[Wide], forms: &[u64]) -> Result<Vec<u8>, u64> {
    let mut start = chain_bytes(chain);
    for (index, (root, goal)) in tasks(plant, chain).iter().enumerate() {
        let table = slow_table_in(forms[index], plant, root, goal).ok_or(index as u64)?;
        start.extend(groups(table.len() as u128));
        start.extend(table);
    }
    Ok(start)
}
