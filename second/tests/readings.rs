//! The numbered readings of document 01's open words, and the facts at their
//! end, as far as a test can tell them.

mod common;
use common::*;
use second::boxes::{Box, Side};
use second::checker::check;
use second::control::{control, State};
use second::image::image;
use second::listing::listing;
use second::maker::make;
use second::numbers::{groups_of, read_signed, read_unsigned, signed_of, stored_of};
use second::plant::{read_plant, write_plant, Plant};
use second::sheet::{plant_of_sheet, read_sheet, sheet_to_plant, write_sheet, Emitter, Room};

const IDLE: State = State { place: 0, left: 0 };

#[test]
fn reading_1_numbers() {
    assert_eq!(told(read_plant(&[0x81, 0x00])), (1, 0, 0));
    assert_eq!(told(read_plant(&[0x81, 0x01])), (2, 0, 0));
    let widest = [0xFF, 0xFF, 0xFF, 0xFF, 0x7F];
    assert_eq!(read_unsigned(&widest, 0), Ok((34_359_738_367, 5)));
    assert_eq!(read_signed(&widest, 0), Ok((-17_179_869_184, 5)));
    assert_eq!(read_signed(&[0xFE, 0xFF, 0xFF, 0xFF, 0x7F], 0), Ok((17_179_869_183, 5)));
    assert_eq!(read_unsigned(&[0x00], 0), Ok((0, 1)));
    assert_eq!(read_signed(&[0x01], 0), Ok((-1, 1)));
    for b in [10_000_000_000, -10_000_000_000] {
        let plant = read_plant(&file(&with(&p_fields(), 15, S(b)))).expect("in range");
        assert_eq!(plant.coefficients[3], b);
    }
    for (signed, stored) in [(0, 0), (-1, 1), (1, 2), (-2, 3), (i64::MIN, u64::MAX)] {
        assert_eq!((stored_of(signed), signed_of(stored)), (stored, signed));
    }
    let (bytes, length) = groups_of(300);
    assert_eq!(bytes[..length], [0xAC, 0x02]);
}

#[test]
fn reading_2_depth_and_pairs() {
    // 3 at D whether over 6 or by n*D; 3 at lo before hi is read.
    assert_eq!(told(read_plant(&[1, 4, 1, 1, 1, 4])), (3, 5, 0));
    assert_eq!(told(read_plant(&[1, 1, 1, 1, 1, 7])), (3, 5, 0));
    let fields = with(&with(&p_fields(), 10, S(-1_000_000_001)), 11, Raw(vec![0x80]));
    assert_eq!(told(read_plant(&file(&fields))), (3, 14, 0));
    // hi below lo and out of range: 3 at hi once.
    let fields = with(&p_fields(), 7, S(-1_000_001));
    assert_eq!(told(read_plant(&file(&fields))), (3, 8, 0));
}

#[test]
fn reading_3_and_4_order() {
    // K 9 before a cut at D; emitter 3 before a float that ends early.
    assert_eq!(told(read_plant(&[1, 1, 2, 10, 9])), (3, 4, 0));
    let (bytes, places) = encode(&with(&line_13(), 15, U(3)));
    assert_eq!(told(read_sheet(&bytes[..places[16] as usize + 4])), (3, places[15], 0));
    // A float that ends early is 1, even where its bytes so far are of a NaN.
    let (bytes, places) = encode(&with(&line_13(), 14, F(f64::NAN)));
    assert_eq!(told(read_sheet(&bytes[..places[15] as usize - 1])), (1, places[14], 0));
    assert_eq!(told(read_sheet(&bytes[..places[15] as usize])), (13, places[14], 0));
}

#[test]
fn reading_5_minus_zero() {
    let (_, places) = encode(&two_room_sheet());
    let time = with(&two_room_sheet(), 18, F(-0.0));
    assert_eq!(told(read_sheet(&file(&time))), (13, places[18], 0));
    for index in [19, 20, 21, 23, 24, 25, 26, 28] {
        let bytes = file(&with(&two_room_sheet(), index, F(-0.0)));
        let sheet = read_sheet(&bytes).expect("minus zero is not below 0");
        let mut buffer = marked(bytes.len());
        assert_eq!(write_sheet(&sheet, &mut buffer), Ok(bytes.len()));
        assert_eq!(buffer, bytes);
        assert_eq!(buffer[places[index] as usize + 7], 0x80);
    }
}

#[test]
fn reading_6_a_sheet_tells_14_everywhere() {
    let fields = with(&two_room_sheet(), 28, F(1e10));
    let (bytes, values) = (file(&fields), sheet_values(&fields, 2));
    assert_eq!(told(read_sheet(&bytes)), (14, 35, 0));
    assert_eq!(told(write_sheet(&values, &mut [])), (14, 35, 0));
    assert_eq!(told(sheet_to_plant(&bytes, &mut [])), (14, 35, 0));
    assert_eq!(told(plant_of_sheet(&values)), (14, 35, 0));
}

#[test]
fn reading_7_values_over_five_bytes() {
    let p = plant_values(&p_fields(), 1);
    let write = |plant: Plant| told(write_plant(&plant, &mut marked(99)));
    assert_eq!(write(Plant { n: 1 << 35, ..p.clone() }), (1, 1, 0));
    assert_eq!(write(Plant { n: (1 << 35) - 1, ..p.clone() }), (3, 1, 0));
    assert_eq!(write(Plant { n: 1 << 63, ..p.clone() }), (1, 1, 0));
    assert_eq!(write(Plant { n: 0, ..p.clone() }), (3, 1, 0));
    assert_eq!(write(Plant { modes: u64::MAX, ..p.clone() }), (1, 2, 0));
    assert_eq!(write(Plant { q: u64::MAX, n: 4, modes: 16, ..p.clone() }), (1, 3, 0));
    assert_eq!(write(Plant { form: 1, ..Plant::ZEROS }), (3, 1, 0));
    // An earlier value's length moves a later one's place.
    let mut plant = p.clone();
    plant.q = 10_000;
    plant.bands[0].lo[0] = 1 << 34;
    assert_eq!(write(plant), (1, 15, 0));
    let mut plant = p;
    (plant.coefficients[0], plant.coefficients[1]) = (20_000, i64::MIN);
    assert_eq!(write(plant), (1, 19, 0));
}

#[test]
fn reading_8_beyond_n_and_modes() {
    let mut plant = plant_values(&p_fields(), 1);
    for edges in [&mut plant.edges.r_lo, &mut plant.edges.r_hi, &mut plant.edges.s_lo] {
        edges[1..].fill(i64::MAX);
    }
    plant.edges.s_hi[1..].fill(i64::MIN);
    plant.bands[0].lo[1..].fill(i64::MAX);
    plant.bands[0].hi[1..].fill(i64::MIN);
    plant.coefficients.extend([i64::MIN; 9]);
    let mut buffer = marked(22);
    assert_eq!(write_plant(&plant, &mut buffer), Ok(22));
    assert_eq!(buffer, P);
    assert_eq!(read_plant(&buffer), Ok(plant_values(&p_fields(), 1)));
    let clean = sheet_values(&line_13(), 1);
    let mut sheet = clean;
    let wrong = Emitter::Heater { p: f64::NAN, water: f64::NAN };
    sheet.rooms[1..].fill(Room { loss: f64::NAN, exchange: [f64::NAN; 3], emitter: wrong });
    sheet.rooms[0].exchange = [f64::NAN; 3];
    sheet.edges.s_lo[1..].fill(i64::MIN);
    let mut buffer = marked(file(&line_13()).len());
    assert_eq!(told(write_sheet(&sheet, &mut buffer)), (0, 0, 0));
    assert_eq!(buffer, file(&line_13()));
    assert_eq!(read_sheet(&buffer), Ok(clean));
    // The one plant of both: emitters beyond n make no modes.
    assert_eq!(plant_of_sheet(&sheet), plant_of_sheet(&clean));
}

#[test]
fn reading_9_the_maker_searches_on() {
    // P with mode 1's b as mode 0's 300: the first tile fits, the second has none.
    let one_sided = file(&with(&p_fields(), 13, S(300)));
    assert_eq!(told(make(&one_sided, 1, &mut marked(3))), (9, 0, 0));
    let mut exact = marked(7);
    assert_eq!(make(&P, 1, &mut exact), Ok(7));
}

#[test]
fn readings_10_and_11_each_room_has_its_own_record() {
    // time 0.5, q 8, r 10. Room 0: loss 0.25, exchange 0.125, s 0.375: diagonal
    // 8 - 4*0.375 = 6.5 -> 7, beside it 0.5 -> 1; c 0.5*2 = 1 -> 80; heater on s
    // 0.875: 4.5 -> 5, and 1 + 0.5*20 = 11 -> 880. Room 1: loss 0.125, exchange 0.25, s 0.375: beside
    // it 1, diagonal 7; c 0.5 -> 40; steady on 0.5 + 1.5 = 2 -> 160.
    let plant = plant_of_sheet(&sheet_values(&two_room_sheet(), 2)).expect("a plant");
    let rows = [[7, 1, 80], [1, 7, 40], [5, 1, 880], [1, 7, 40]].concat();
    assert_eq!(plant.coefficients[..12], rows);
    let rows = [[7, 1, 80], [1, 7, 160], [5, 1, 880], [1, 7, 160]].concat();
    assert_eq!(plant.coefficients[12..24], rows);
    assert_eq!((plant.modes, plant.n, plant.q, plant.k, plant.d), (4, 2, 8, 2, 1));
    // Exchanges 1 (of room 0) and 3 (of room 1) stay in their own rows.
    let fields = with(&with(&two_room_sheet(), 21, F(1.0)), 26, F(3.0));
    let plant = plant_of_sheet(&sheet_values(&fields, 2)).expect("a plant");
    assert_eq!((plant.coefficients[1], plant.coefficients[3]), (4, 12));
    assert_eq!((plant.coefficients[0], plant.coefficients[4]), (8 - 5, 8 - 13));
}

/// A sheet of three rooms with the given emitters, everything else plain:
/// time 1, outside 1, q 1, r 1, losses 1, exchanges 10 i + j, no band to speak of.
fn three_rooms(emitters: [Vec<Field>; 3]) -> Vec<Field> {
    let mut fields = vec![U(1), U(3), U(1), U(1), U(1), U(0)];
    fields.extend([0, 1, 0, 1].repeat(3).into_iter().map(S));
    fields.extend([0, 0].repeat(3).into_iter().map(S));
    fields.extend([F(1.0), F(1.0)]);
    for (i, emitter) in emitters.into_iter().enumerate() {
        fields.push(F(1.0));
        let others = (0..3).filter(|j| *j != i);
        fields.extend(others.map(|j| F((10 * i + j) as f64)));
        fields.extend(emitter);
    }
    fields
}

#[test]
fn mode_bits_count_rooms_with_emitters() {
    let heater = vec![U(1), F(10.0), F(10.0)];
    let steady = vec![U(2), F(1000.0)];
    let fields = three_rooms([vec![U(0)], heater, steady]);
    let plant = plant_of_sheet(&read_sheet(&file(&fields)).expect("a sheet")).expect("a plant");
    assert_eq!(plant.modes, 4);
    // Row 0: g 1, 2, diagonal 1 - 4; row 1: g 10, 12, 1 - 23, with its heater on 1 - 33;
    // row 2: g 20, 21, 1 - 42.
    let rows = |a1, b1, b2| [-3, 1, 2, 1, 10, a1, 12, b1, 20, 21, -41, b2];
    let expected = [rows(-22, 1, 1), rows(-32, 101, 1), rows(-22, 1, 1001), rows(-32, 101, 1001)].concat();
    assert_eq!(plant.coefficients[..48], expected);
    // No emitter: one mode.
    let fields = three_rooms([vec![U(0)], vec![U(0)], vec![U(0)]]);
    let plant = plant_of_sheet(&read_sheet(&file(&fields)).expect("a sheet")).expect("a plant");
    assert_eq!(plant.modes, 1);
    assert_eq!(plant.coefficients[..12], rows(-22, 1, 1));
    assert_eq!(plant.coefficients.len(), 12);
}

#[test]
fn reading_12_m_is_one_number() {
    // Two rooms, S 190..230 and 180..231: M 231, widened by ceil(463/2) = 232 in both.
    let plant = plant_of_sheet(&sheet_values(&two_room_sheet(), 2)).expect("a plant");
    assert_eq!(plant.bands[0].lo, [-236, -237, 0, 0]);
    assert_eq!(plant.bands[0].hi, [235, 238, 0, 0]);
    // M by a low edge: S -1000..230 in room 0: ceil(2001/2) = 1001.
    let fields = with(&two_room_sheet(), 8, S(-1000));
    let plant = plant_of_sheet(&sheet_values(&fields, 2)).expect("a plant");
    assert_eq!((plant.bands[0].lo[1], plant.bands[0].hi[0]), (-1006, 1004));
    // n*M odd: one room, M 231, exactly 116; M 230, ceil(115.5) = 116.
    for (edge, by) in [(231, 116), (230, 116), (232, 117)] {
        let fields = with(&line_13(), 9, S(edge));
        let plant = plant_of_sheet(&sheet_values(&fields, 1)).expect("a plant");
        assert_eq!((plant.bands[0].lo[0], plant.bands[0].hi[0]), (-4 - by, 3 + by));
    }
    // M 0: by ceil(1/2) = 1.
    let mut fields = line_13();
    for index in 6..10 {
        fields = with(&fields, index, S(0));
    }
    let plant = plant_of_sheet(&sheet_values(&fields, 1)).expect("a plant");
    assert_eq!((plant.bands[0].lo[0], plant.bands[0].hi[0]), (-5, 4));
}

#[test]
fn reading_13_the_range_is_of_the_rounded_number() {
    // Room 1's exchange, q 8, time 0.5: 4 g. 20,000.499.. is in, 20,000.5 is not.
    let below = f64::from_bits(5_000.125_f64.to_bits() - 1);
    let fields = with(&two_room_sheet(), 26, F(below));
    let plant = plant_of_sheet(&sheet_values(&fields, 2)).expect("rounds to the limit");
    assert_eq!(plant.coefficients[3], 20_000);
    let fields = with(&two_room_sheet(), 26, F(5_000.125));
    assert_eq!(told(read_sheet(&file(&fields))), (14, 18 + 3, 0));
    // b: 10 * outside in room 0 (80 * 0.5 * 0.25); 1e9 + 0.05 is 10^10 + 0.5.
    // The nearest f64 to 0.05 beside 1e9 lies at steps of 2^-23: take one below.
    let step = 2.0_f64.powi(-23);
    let steps = (0.05 / step).floor();
    let inside = 1e9 + steps * step;
    let outside = 1e9 + (steps + 1.0) * step;
    let fields = with(&with(&two_room_sheet(), 25, F(0.0)), 19, F(inside));
    let plant = plant_of_sheet(&sheet_values(&fields, 2));
    // The heater's mode goes over, at mode 1 row 0: so b of mode 0 was in range.
    assert_eq!(told(plant), (14, 18 + 6 + 2, 0));
    let fields = with(&fields, 19, F(outside));
    assert_eq!(told(read_sheet(&file(&fields))), (14, 18 + 2, 0));
    let fields = with(&fields, 19, F(-outside));
    assert_eq!(told(read_sheet(&file(&fields))), (14, 18 + 2, 0));
}

#[test]
fn reading_15_children() {
    // Three rooms, the middle one a single count: 4 children, dimension 0 the lowest bit.
    let parent = Box::new(&[0, 5, -4], &[3, 5, -1]);
    let children: Vec<Box> = parent.split().expect("sides").collect();
    let expected = [
        Box::new(&[0, 5, -4], &[1, 5, -3]),
        Box::new(&[2, 5, -4], &[3, 5, -3]),
        Box::new(&[0, 5, -2], &[1, 5, -1]),
        Box::new(&[2, 5, -2], &[3, 5, -1]),
    ];
    assert_eq!(children, expected);
    assert!(Box::new(&[4, 4], &[4, 4]).split().is_none());
}

/// A plant of two rooms, R 0..1 by 5..5, D 2, whose only mode keeps every
/// reading (q 1, A the identity, w 0..0); S as R.
fn still_plant() -> Vec<u8> {
    let mut fields = vec![U(1), U(2), U(2), U(1), U(2), U(2)];
    fields.extend([0, 1, 0, 1, 5, 5, 5, 5, 0, 0, 0, 0].map(S));
    fields.extend([1, 0, 0, 0, 1, 0].map(S));
    fields.extend([1, 0, 0, 0, 1, 0].map(S));
    file(&fields)
}

#[test]
fn reading_15_a_walk_carries_the_box() {
    // The split of 0..1 by 5..5 has two children, not four.
    let table = [1, 2, 0, 1, 0, 1, 1];
    assert_eq!(check(&still_plant(), &table), Ok(()));
    let call = |x| control(&still_plant(), &table, IDLE, [x, 5, 0, 0]);
    assert_eq!((call(0), call(1)), (Ok((0, IDLE)), Ok((1, IDLE))));
    // A child is one count by one: it cannot be split though depth is left.
    let table = [1, 2, 0, 0, 1, 0, 1, 0];
    assert_eq!(told(check(&still_plant(), &table)), (6, 3, 0));
    assert_eq!(told(control(&still_plant(), &table, IDLE, [1, 5, 0, 0])), (6, 3, 0));
}

#[test]
fn reading_16_and_17_tables() {
    assert_eq!(told(check(&p_prime(), &[1, 1, 2, 0, 0])), (7, 2, 2));
    assert_eq!(told(check(&P, &[1, 1, 0, 1, 0, 9])), (7, 3, 1));
    assert_eq!(told(check(&P, &[1, 1, 9])), (6, 2, 0));
    assert_eq!(told(check(&P, &[1, 0])), (6, 1, 0));
    assert_eq!(told(check(&P, &[1, 5])), (6, 1, 0));
    assert_eq!(told(check(&P, &[4, 5])), (2, 0, 0));
}

#[test]
fn reading_18_edges_dimension_by_dimension() {
    // Both rooms follow room 0: from 0..1 by 0..0 only (0,0) and (1,1) follow,
    // and the image is 0..1 by 0..1 all the same.
    let mut plant = Plant { q: 1, ..Plant::zeros(2, 1) };
    plant.coefficients[..6].copy_from_slice(&[1, 0, 0, 1, 0, 0]);
    let made = image(&plant, 0, &Box::new(&[0, 0], &[1, 0]));
    assert_eq!(made.sides(), [Side { lo: 0, hi: 1 }; 2]);
}

#[test]
fn reading_19_states() {
    // Left = K, place 2 and place + left = length are allowed: byte 2 is a mode here.
    let table = [1, 1, 1, 1];
    let state = State { place: 2, left: 2 };
    let next = State { place: 3, left: 1 };
    assert_eq!(control(&P, &table, state, [190, 0, 0, 0]), Ok((1, next)));
    assert_eq!(control(&P, &table, next, [230, 0, 0, 0]), Ok((1, IDLE)));
    // All the modes left are tested, not the next alone; those behind them are not.
    let table = [1, 1, 2, 0, 0xFF];
    for (state, wanted) in [((3, 2), 12), ((4, 1), 12), ((3, 1), 0)] {
        let answer = control(&P, &table, State { place: state.0, left: state.1 }, [200; 4]);
        assert_eq!(told(answer), (wanted, 0, 0));
    }
}

#[test]
fn reading_20_and_21_calls() {
    // Idle in S and outside R is 11.
    assert_eq!(told(control(&p_prime(), &T5, IDLE, [186, 0, 0, 0])), (11, 0, 0));
    // A cut behind the chosen tile is answered, inside or before it is 1 there.
    let call = |table: &[u8], count| control(&P, table, IDLE, [count, 0, 0, 0]);
    assert_eq!(call(&T1[..5], 195), Ok((1, IDLE)));
    assert_eq!(told(call(&T1[..4], 195)), (1, 4, 0));
    assert_eq!(told(call(&T1[..5], 225)), (1, 5, 0));
    assert_eq!(told(call(&T1[..6], 225)), (1, 6, 0));
    assert_eq!(told(call(&T1[..2], 195)), (1, 2, 0));
    // Leftover bytes are never told.
    assert_eq!(call(&[1, 1, 0, 1, 1, 1, 0, 0x80, 0xFF], 225), Ok((0, IDLE)));
}

#[test]
fn reading_22_listings() {
    assert_eq!(listing(&p_prime(), 1), "table 1 1 2\n195 225 : 0 1\n");
    assert_eq!(listing(&still_plant(), 1), "table 2 1 1\n0 1 5 5 : 0\n");
    assert_eq!(listing(&[], 1), "refused 1 0\n");
    assert_eq!(listing(&[1, 9], 1), "refused 3 1\n");
}

#[test]
fn fact_images_reach_91_billion() {
    let mut plant = Plant { q: 1, ..Plant::zeros(4, 1) };
    (plant.bands[0].lo, plant.bands[0].hi) = ([-1_000_000_000; 4], [1_000_000_000; 4]);
    for row in plant.coefficients[..20].chunks_mut(5) {
        row.copy_from_slice(&[20_000, -20_000, 20_000, -20_000, 10_000_000_000]);
    }
    let made = image(&plant, 0, &Box::new(&[-1_000_000; 4], &[1_000_000; 4]));
    assert_eq!(made.sides(), [Side { lo: -71_000_000_000, hi: 91_000_000_000 }; 4]);
}

#[test]
fn fact_products_are_exact() {
    // r 3, c 0.16666666666666666, q 1: loss 1, outside c, time 1. 3 c is just
    // below a half and rounds to a half in f64.
    let mut fields = vec![U(1), U(1), U(3), U(1), U(1), U(0)];
    fields.extend([0, 0, 0, 0, 0, 0].map(S));
    fields.extend([F(1.0), F(0.166_666_666_666_666_66), F(1.0), U(0)]);
    let plant = plant_of_sheet(&sheet_values(&fields, 1)).expect("a plant");
    assert_eq!(plant.coefficients[..2], [0, 0]);
    let fields = with(&fields, 13, F(0.166_666_666_666_666_69));
    let plant = plant_of_sheet(&sheet_values(&fields, 1)).expect("a plant");
    assert_eq!(plant.coefficients[..2], [0, 1]);
}

#[test]
fn fact_no_fused_multiply_add() {
    // With e = 2^-27: (1 - e) * 1.5 (1 + e) = 1.5 - 1.5 e^2, which rounds to 1.5.
    // So the diagonal 1 - 1.5 = -0.5 gives -1; fused it would be above -0.5, giving 0.
    let e = 2.0_f64.powi(-27);
    let mut fields = vec![U(1), U(1), U(1), U(1), U(1), U(0)];
    fields.extend([0, 0, 0, 0, 0, 0].map(S));
    fields.extend([F(1.0 - e), F(0.0), F(1.5 * (1.0 + e)), U(0)]);
    let plant = plant_of_sheet(&sheet_values(&fields, 1)).expect("a plant");
    assert_eq!(plant.coefficients[..2], [-1, 0]);
    // Offset: c = (1 - e) * -(1 + e) = -1 + e^2, which rounds to -1 (to even); with
    // the steady emitter 1.5 (1 + e) on, -1 + 1.5 = 0.5 gives 1, fused 0.
    let fields = with(&with(&fields, 13, F(-(1.0 + e))), 14, F(1.0));
    let mut fields = with(&fields, 15, U(2));
    fields.push(F(1.5 * (1.0 + e)));
    let plant = plant_of_sheet(&sheet_values(&fields, 1)).expect("a plant");
    assert_eq!(plant.coefficients[..4], [0, -1, 0, 1]);
}

#[test]
fn fact_products_are_taken_in_order() {
    // time 1e-310, loss 1e160, outside 1e150: loss*outside is not finite, so 14 at
    // b of mode 0, number 13; (time*loss)*outside would be about 1.
    let mut fields = vec![U(1), U(1), U(1), U(1), U(1), U(0)];
    fields.extend([0, 0, 0, 0, 0, 0].map(S));
    fields.extend([F(1e-310), F(1e150), F(1e160), U(0)]);
    assert_eq!(told(read_sheet(&file(&fields))), (14, 13, 0));
    // The same for p*water: b of mode 1, number 15.
    let fields = with(&with(&fields, 13, F(0.0)), 14, F(0.0));
    let mut fields = with(&fields, 15, U(1));
    fields.extend([F(1e160), F(1e150)]);
    assert_eq!(told(read_sheet(&file(&fields))), (14, 15, 0));
}

/// The first row of three rooms with this time and these numbers in room 0,
/// q 1, outside 0, everything else 0.
fn first_row(time: f64, loss: f64, exchanges: [f64; 2]) -> [i64; 4] {
    let mut fields = vec![U(1), U(3), U(1), U(1), U(1), U(0)];
    fields.extend([0; 18].map(S));
    fields.extend([F(time), F(0.0), F(loss), F(exchanges[0]), F(exchanges[1]), U(0)]);
    for _ in 0..2 {
        fields.extend([F(0.0), F(0.0), F(0.0), U(0)]);
    }
    let plant = plant_of_sheet(&read_sheet(&file(&fields)).expect("a sheet")).expect("a plant");
    std::array::from_fn(|j| plant.coefficients[j])
}

#[test]
fn fact_the_sum_is_taken_in_order() {
    // With time the float below 1.5 * 2^-53, s = 2^53 gives the diagonal -0.5 +
    // 2^-52, so 0; s = 2^53 + 2 gives -0.5, so -1. 2^53 + 1 rounds to 2^53.
    let big = 2.0_f64.powi(53);
    let time = f64::from_bits((1.5 / big).to_bits() - 1);
    assert_eq!(first_row(time, big, [0.0, 0.0]), [0, 0, 0, 0]);
    assert_eq!(first_row(time, big + 2.0, [0.0, 0.0]), [-1, 0, 0, 0]);
    // (2^53 + 1) + 1, not 2^53 + (1 + 1).
    assert_eq!(first_row(time, big, [1.0, 1.0]), [0, 0, 0, 0]);
    // (1 + 2^53) + 1, not (1 + 1) + 2^53; beside the diagonal 1.5 - 2^-52.
    assert_eq!(first_row(time, 1.0, [big, 1.0]), [0, 1, 0, 0]);
    // (1 + 1) + 2^53.
    assert_eq!(first_row(time, 1.0, [1.0, big]), [-1, 0, 1, 0]);
}

#[test]
fn fact_largest_plant() {
    let mut fields = vec![U(1), U(4), U(16), U(10_000), U(6), U(3)];
    fields.extend([-1_000_000, 1_000_000].repeat(8).into_iter().map(S));
    fields.extend([-1_000_000_000, 1_000_000_000].repeat(4).into_iter().map(S));
    let row = [20_000, -20_000, 20_000, -20_000, -10_000_000_000];
    fields.extend(row.repeat(64).into_iter().map(S));
    let bytes = file(&fields);
    assert_eq!(bytes.len(), 1_183);
    let plant = read_plant(&bytes).expect("the largest plant");
    assert_eq!(plant, plant_values(&fields, 4));
    let mut buffer = marked(1_184);
    assert_eq!(write_plant(&plant, &mut buffer), Ok(1_183));
    assert_eq!(buffer[..1_183], bytes);
    assert_eq!(buffer[1_183], 0xAA);
    buffer[1_183] = 0;
    assert_eq!(told(read_plant(&buffer)), (3, 1_183, 0));
}

#[test]
fn fact_largest_sheet() {
    let mut fields = vec![U(1), U(4), U(1_000), U(10_000), U(6), U(3)];
    fields.extend([-1_000_000, 1_000_000].repeat(8).into_iter().map(S));
    fields.extend([-900_000_000, 900_000_000].repeat(4).into_iter().map(S));
    fields.extend([F(0.25), F(8.0)]);
    for _ in 0..4 {
        fields.extend([F(0.5), F(0.5), F(0.5), F(0.5), U(1), F(0.5), F(40.0)]);
    }
    let bytes = file(&fields);
    assert_eq!(bytes.len(), 308);
    let sheet = read_sheet(&bytes).expect("the largest sheet");
    let mut buffer = marked(308);
    assert_eq!(write_sheet(&sheet, &mut buffer), Ok(308));
    assert_eq!(buffer, bytes);
    let plant = plant_of_sheet(&sheet).expect("a plant");
    // (4 * 1,000,000 + 1)/2 upwards is 2,000,001. Diagonal 1 - 0.25 * 2 = 0.5.
    assert_eq!(plant.bands[0].lo, [-902_000_001; 4]);
    assert_eq!(plant.modes, 16);
    assert_eq!(plant.coefficients[..5], [5_000, 1_250, 1_250, 1_250, 10_000_000]);
    // Mode 15, room 3: diagonal 1 - 0.25 * 2.5 = 0.375, c 1 + 0.25 * 20 = 6.
    assert_eq!(plant.coefficients[315..], [1_250, 1_250, 1_250, 3_750, 60_000_000]);
}

#[test]
fn fact_largest_table() {
    let mut fields = vec![U(1), U(2), U(1), U(1), U(6), U(6)];
    let limit = 1_000_000;
    fields.extend([1000, 1063, -limit, limit, 1000, 1063, -limit, limit, 0, 0, 0, 0].map(S));
    fields.extend([4, -13, 0, 1, -3, 0].map(S));
    let plant = file(&fields);
    let mut table = marked(30_040);
    assert_eq!(make(&plant, 1, &mut table), Ok(30_039));
    assert_eq!(table[30_039], 0xAA);
    assert_eq!(check(&plant, &table[..30_039]), Ok(()));
    assert_eq!(told(check(&plant, &table[..30_038])), (1, 30_038, 0));
    assert_eq!(told(check(&plant, &table)), (6, 30_039, 0));
    // Every leaf is a single reading with the pattern 0 six times: 4^6 of them.
    assert_eq!(table[..10], [1, 2, 0, 0, 0, 0, 0, 0, 6, 0]);
    assert_eq!(table[2..30_039].iter().filter(|byte| **byte == 6).count(), 4_096);
    let mut short = marked(30_038);
    assert_eq!(told(make(&plant, 1, &mut short)), (10, 0, 0));
    assert!(short.iter().all(|byte| *byte == 0));
    // The last reading's tile is found behind all the others.
    let call = control(&plant, &table[..30_039], IDLE, [1063, 1063, 0, 0]);
    assert_eq!(call, Ok((0, State { place: 30_034, left: 5 })));
    let lines = listing(&plant, 1);
    assert_eq!(lines.lines().count(), 4_097);
    assert!(lines.starts_with("table 2 4096 6\n1000 1000 1000 1000 : 0 0 0 0 0 0\n1001 1001 1000"));
    assert!(lines.ends_with("\n1063 1063 1063 1063 : 0 0 0 0 0 0\n"));
}
