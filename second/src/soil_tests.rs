//! Worksheets 5-5 and 5-5A by hand.

use crate::figures::case;
use crate::make::Rows;
use crate::rng::Rng;
use crate::sheets::{figures, sheets, text, Worksheets, NUMBERS};

fn return_of(rows: &[[u32; 9]]) -> Rows {
    Rows {
        edition: 2,
        parameters: vec![[500, 12, 60, 10, 7, 121]],
        soil: rows.to_vec(),
        ..Rows::default()
    }
}

/// `soil` and `soil_change`.
fn soils(rows: &[[u32; 9]]) -> (i64, i64) {
    let s = sheets(&return_of(rows).to_bytes()).expect("the rows are good");
    (s.soil, s.soil_change)
}

/// 2 Mha of forest on soils with 60 t/ha (table 5-7, dry tropics), of which 0.5 Mha were
/// ploughed: 0.6 x 0.9 x 0.8 of that (table 5-8).
const FOREST: [u32; 9] = [1, 1, 3, 1_500, 2_000, 600, 100, 100, 100];
const FIELD: [u32; 9] = [2, 2, 3, 500, 0, 600, 60, 90, 80];

/// Column by column: C = 60 and 60 x 0.6 x 0.9 x 0.8 = 25.92 t/ha; G - F is 60 x
/// (1.5 - 2.0) = -30 and 25.92 x 0.5 = 12.96 Mt, together -17.04 Mt in twenty years, and
/// -852,000 t a year.
#[test]
fn a_change_of_land_use() {
    assert_eq!(soils(&[FOREST, FIELD]), (-170_400_000_000, -852_000));
    // The other way round it is gained.
    let back = [FOREST, FIELD].map(|mut row| {
        row.swap(3, 4);
        row
    });
    assert_eq!(soils(&back), (170_400_000_000, 852_000));
    // Land that stays as it is brings nothing.
    let same = [3, 2, 9, 777, 777, 10_000, 300, 300, 300];
    assert_eq!(soils(&[same]), (0, 0));
    assert_eq!(soils(&[FOREST, FIELD, same]).1, -852_000);
    assert_eq!(soils(&[]), (0, 0));
}

/// Each field by itself: a factor of zero takes all carbon away.
#[test]
fn zero_fields() {
    for at in 5..9 {
        let (mut forest, mut field) = (FOREST, FIELD);
        forest[at] = 0;
        assert_eq!(soils(&[forest, FIELD]).0, 129_600_000_000);
        field[at] = 0;
        assert_eq!(soils(&[FOREST, field]).0, -300_000_000_000);
    }
    // Land system and soil type change no figure, as long as the type is even.
    let (mut forest, mut field) = (FOREST, FIELD);
    (forest[1], field[1]) = (65_535, 0);
    (forest[2], field[2]) = (65_535, 65_535);
    assert_eq!(soils(&[forest, field]).1, -852_000);
}

/// A soil of carbon 1 that gains `units` area, or loses them, and one of none.
fn by_units(units: i32) -> [[u32; 9]; 2] {
    let (now, then) = (units.max(0) as u32, (-units).max(0) as u32);
    [
        [1, 0, 5, now, then, 1, 1, 1, 1],
        [2, 0, 5, then, now, 1, 1, 1, 0],
    ]
}

/// 0.5 tonnes a year are 100,000 units.
#[test]
fn halves_go_to_the_even_neighbour() {
    let change = |units: i32, tonnes: u32, lost: bool| {
        // So many whole tonnes more, of 200,000 units each.
        let (mut more, mut none) = (
            [3, 0, 5, tonnes, 0, 20, 100, 100, 1],
            [4, 0, 5, 0, tonnes, 0, 1, 1, 1],
        );
        if lost {
            more.swap(3, 4);
            none.swap(3, 4);
        }
        let [one, two] = by_units(units);
        soils(&[one, two, more, none])
    };
    for (units, tonnes, due) in [
        (99_999, 0, 0),
        (100_000, 0, 0),
        (99_999, 1, 1),
        (100_000, 1, 2),
        (99_999, 2, 2),
        (100_000, 2, 2),
        (100_000, 3, 4),
        (100_000, 99_999, 100_000),
        (100_000, 100_000, 100_000),
    ] {
        let gain = i64::from(units) + 200_000 * i64::from(tonnes);
        assert_eq!(change(units, tonnes, false), (gain, due));
        assert_eq!(change(-units, tonnes, true), (-gain, -due));
    }
    // One unit above a half, from below and from above.
    assert_eq!(change(-99_999, 1, false), (100_001, 1));
    assert_eq!(change(99_999, 1, true), (-100_001, -1));
    assert_eq!(change(-99_999, 3, false), (500_001, 3));
    assert_eq!(change(99_999, 3, true), (-500_001, -3));
}

/// "rounded once": two halves are one tonne, of one type or of two.
#[test]
fn rows_are_summed_before_rounding() {
    let [a, b] = by_units(100_000);
    let [mut c, mut d] = by_units(100_000);
    (c[0], d[0]) = (3, 4);
    assert_eq!(soils(&[a, b]).1, 0);
    assert_eq!(soils(&[a, b, c, d]), (200_000, 1));
    (c[2], d[2]) = (6, 6);
    assert_eq!(soils(&[a, b, c, d]), (200_000, 1));
    // A half more and a half less are none.
    for row in [&mut c, &mut d] {
        row.swap(3, 4);
    }
    assert_eq!(soils(&[a, b, c, d]), (0, 0));
}

/// 16 rows of 2.7 x 10^16 either way: 2.16 x 10^12 tonnes a year.
#[test]
fn the_largest_change() {
    let row = |id: u32, gains: bool| {
        let [now, then] = if gains { [100_000, 0] } else { [0, 100_000] };
        let native = if gains { 10_000 } else { 0 };
        [id, 0, 0, now, then, native, 300, 300, 300]
    };
    let mut rows: Vec<[u32; 9]> = (0..32).map(|id| row(id, id % 2 == 0)).collect();
    let due = 432_000_000_000_000_000;
    assert_eq!(soils(&rows), (due, 2_160_000_000_000));
    rows.iter_mut().for_each(|row| row.swap(3, 4));
    assert_eq!(soils(&rows), (-due, -2_160_000_000_000));
    let mut room = [7; NUMBERS];
    assert_eq!(figures(&return_of(&rows).to_bytes(), &mut room), 0);
    assert_eq!(room[75..78], [1, 0, due as u64]);
    assert_eq!(room[78..81], [1, 0, 2_160_000_000_000]);
}

/// Behind the savannas, and with a sign only below zero.
#[test]
fn soils_print_behind_the_savannas() {
    let lines = |rows: &[[u32; 9]]| {
        let text = text(&return_of(rows).to_bytes());
        let text = String::from_utf8(text.as_bytes().to_vec()).expect("the text is ASCII");
        let lines: Vec<String> = text.lines().skip(24).take(3).map(String::from).collect();
        lines
    };
    let due = ["savanna_nox 0", "soil -170400000000", "soil_change -852000"];
    assert_eq!(lines(&[FOREST, FIELD]), due);
    assert_eq!(lines(&[]), ["savanna_nox 0", "soil 0", "soil_change 0"]);
    // Below zero, and rounded to zero.
    let due = ["savanna_nox 0", "soil -100000", "soil_change 0"];
    assert_eq!(lines(&by_units(-100_000)), due);
}

/// No other figure changes with the soils.
#[test]
fn soils_leave_the_other_figures() {
    let mut rng = Rng::new(214);
    for count in [1, 12, 13, 32] {
        let mut rows = Rows::good_in(&mut rng, 2, [3, 3, 3, 3, 3, count]);
        let with = sheets(&rows.to_bytes()).expect("good rows");
        rows.soil.clear();
        let without = sheets(&rows.to_bytes()).expect("good rows");
        assert_eq!((without.soil, without.soil_change), (0, 0));
        let alone = Worksheets {
            soil: 0,
            soil_change: 0,
            ..with
        };
        assert_eq!(alone, without);
    }
}

/// Column by column over the records of a return, as the workbook has them: C, F and G,
/// and H is G less F.
fn columns(bytes: &[u8]) -> i128 {
    let blocks = bytes.chunks(512).filter(|block| block[0] == 7);
    let records = blocks.flat_map(|block| block[8..].chunks(40).take(block[1].into()));
    let two = |r: &[u8], at: usize| i128::from(u16::from_le_bytes([r[at], r[at + 1]]));
    let h = |r: &[u8]| {
        let c = two(r, 16) * two(r, 18) * two(r, 20) * two(r, 22);
        let [e, d] = [8, 12].map(|at| two(r, at) + 65_536 * two(r, at + 2));
        let (f, g) = (c * d, c * e);
        g - f
    };
    records.map(h).sum()
}

/// The columns on many returns, and rounding as the request says it: no other whole
/// number is nearer, and at a half it is even.
#[test]
fn rounded_is_nearest() {
    let mut rng = Rng::new(215);
    let mut halves = [0; 2];
    for _ in 0..10_000 {
        let bytes = case(&mut rng).bytes;
        let s = sheets(&bytes).expect("made good");
        let above = columns(&bytes);
        assert_eq!(i128::from(s.soil), above);
        let twice_off = 2 * (i128::from(s.soil_change) * 200_000 - above).abs();
        let even = twice_off == 200_000 && s.soil_change % 2 == 0;
        assert!(twice_off < 200_000 || even, "{above}: {}", s.soil_change);
        halves[usize::from(above < 0)] += i32::from(even);
    }
    assert!(halves.iter().all(|&times| times > 150), "{halves:?}");
}
