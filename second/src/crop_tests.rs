//! Worksheet 4-4 by hand.

use crate::figures::case;
use crate::judge::judge;
use crate::kinds::{COUNTS_ROOM, RETURN_ROOM};
use crate::lists::RowLists;
use crate::make::{worked_day, CropRow, Rows, CROPS};
use crate::reader::count;
use crate::rng::Rng;
use crate::sheets::{figures, sheets, text, Worksheets, NUMBERS};

/// The parameters, which crops have nothing to do with, and these rows.
fn return_of(rows: &[CropRow]) -> Rows {
    Rows {
        edition: 3,
        parameters: vec![[500, 12, 60, 10, 7, 121]],
        crop: rows.to_vec(),
        ..Rows::default()
    }
}

fn sheets_of(rows: &[CropRow]) -> Worksheets {
    sheets(&return_of(rows).to_bytes()).expect("the rows are good")
}

fn carbon_of(rows: &[CropRow]) -> u128 {
    sheets_of(rows).crop_carbon
}

/// CH4, CO, N2O and NOx.
fn gases(s: &Worksheets) -> [u64; 4] {
    [s.crop_ch4, s.crop_co, s.crop_n2o, s.crop_nox]
}

fn gases_of(rows: &[CropRow]) -> [u64; 4] {
    gases(&sheets_of(rows))
}

/// A million tonnes of wheat with the workbook's defaults (tables 4-15 and 4-16), of whose
/// residues a quarter is burned.
const WHEAT: CropRow = [5, 10_000, 130, 830, 250, 900, 4_853, 12, 5, 60, 7, 121];

/// Column by column: C = 1,000 kt x 1.3 = 1,300 kt; E = 0.83 C = 1,079 kt; H = E x 0.25 x
/// 0.90 = 242.775 kt; J = 0.4853 H = 117.8187075 kt C; L = 0.012 J = 1.41382449 kt N.
/// CH4: 117,818.7075 x 0.005 x 16/12 = 785.46 t; CO: x 0.06 x 28/12 = 16,494.6 t.
/// N2O: 1,413.82449 x 0.007 x 44/28 = 15.55 t; NOx: x 0.121 x 46/14 = 562.1 t.
#[test]
fn a_worked_row() {
    assert_eq!(carbon_of(&[WHEAT]), 1_178_187_075_000_000_000);
    assert_eq!(gases_of(&[WHEAT]), [785, 16_495, 16, 562]);
}

/// With primes: no factor can stand in for another, nor be left out.
#[test]
fn carbon_is_the_product_of_six() {
    let row = [9, 2, 3, 5, 7, 11, 13, 1, 1, 1, 1, 1];
    assert_eq!(carbon_of(&[row]), 30_030);
    assert_eq!((CROPS.carbon)(&row), 30_030);
    // Each of them by itself takes all carbon away, and nothing else does.
    for at in 1..12 {
        let mut row = WHEAT;
        row[at] = 0;
        let due = if at < 7 { 0 } else { 1_178_187_075_000_000_000 };
        assert_eq!(carbon_of(&[row]), due, "field {at}");
    }
}

/// Each ratio goes into its own gas, and N/C into N2O and NOx alone.
#[test]
fn ratios_by_gas() {
    let with = |at: usize| {
        let mut row = WHEAT;
        row[at] = 0;
        gases_of(&[row])
    };
    assert_eq!(with(7), [785, 16_495, 0, 0]);
    assert_eq!(with(8), [0, 16_495, 16, 562]);
    assert_eq!(with(9), [785, 0, 16, 562]);
    assert_eq!(with(10), [785, 16_495, 0, 562]);
    assert_eq!(with(11), [785, 16_495, 16, 0]);
}

const LARGEST: CropRow = [
    0, 10_000_000, 1_000, 1_000, 1_000, 1_000, 10_000, 1_000, 1_000, 1_000, 1_000, 1_000,
];

/// 10^23 x 4/3 x 10^3 / 10^16 is 13,333,333,333.3 t of CH4, and so on.
#[test]
fn the_largest_row() {
    assert_eq!(carbon_of(&[LARGEST]), 10u128.pow(23));
    let due = [
        13_333_333_333,
        23_333_333_333,
        15_714_285_714,
        32_857_142_857,
    ];
    assert_eq!(gases_of(&[LARGEST]), due);
    // 10^23 is 5,421 x 2^64 + 200,376,420,520,689,664, and the last of all figures are these.
    let mut room = [7; NUMBERS];
    let bytes = return_of(&[LARGEST]).to_bytes();
    assert_eq!(figures(&bytes, &mut room), 0);
    assert_eq!(NUMBERS, 114);
    assert_eq!(room[99..102], [0, 5_421, 200_376_420_520_689_664]);
    assert_eq!(room[102..105], [0, 0, due[0]]);
    assert_eq!(room[105..108], [0, 0, due[1]]);
    assert_eq!(room[108..111], [0, 0, due[2]]);
    assert_eq!(room[111..114], [0, 0, due[3]]);
}

/// 3.2 x 10^30 by N/C and a ratio, and 23 times that.
#[test]
fn the_largest_rows() {
    let row = |id| {
        let mut row = LARGEST;
        row[0] = id;
        row
    };
    let rows: Vec<CropRow> = (0..32).map(row).collect();
    let text = text(&return_of(&rows).to_bytes());
    let text = std::str::from_utf8(text.as_bytes()).expect("the text is ASCII");
    assert!(text.contains("\ncrop_carbon 3200000000000000000000000\n"));
    assert_eq!(
        gases_of(&rows),
        [
            426_666_666_667,
            746_666_666_667,
            502_857_142_857,
            1_051_428_571_429
        ]
    );
}

/// Carbon of `times` x 10^13 with these ratios.
fn row(id: u32, times: u32, ratios: [u32; 5]) -> CropRow {
    let mut row = [id, times, 1, 1_000, 1_000, 1_000, 10_000, 0, 0, 0, 0, 0];
    row[7..].copy_from_slice(&ratios);
    row
}

/// By hand, each gas at 1, 3, 5 and 7 times its smallest half in these steps:
/// 0.5, 3.5, 5.5 and 11.5 tonnes.
#[test]
fn halves_go_to_the_even_neighbour() {
    let times = [1, 3, 5, 7];
    let ch4 = times.map(|times| gases_of(&[row(1, times, [0, 375, 0, 0, 0])])[0]);
    assert_eq!(ch4, [0, 2, 2, 4]);
    let co = times.map(|times| gases_of(&[row(1, 2 * times, [0, 0, 750, 0, 0])])[1]);
    assert_eq!(co, [4, 10, 18, 24]);
    let n2o = times.map(|times| gases_of(&[row(1, 7 * times, [1_000, 0, 0, 500, 0])])[2]);
    assert_eq!(n2o, [6, 16, 28, 38]);
    let nox = times.map(|times| gases_of(&[row(1, 7 * times, [1_000, 0, 0, 0, 500])])[3]);
    assert_eq!(nox, [12, 34, 58, 80]);
}

/// The smallest step beside a half of CH4, and of NOx, whose divisor is beyond one word:
/// carbon of 1 by ratios of 1.
#[test]
fn one_step_beside_a_half() {
    let step = |at: usize| {
        let mut row = [2, 1, 1, 1, 1, 1, 1, 1, 0, 0, 0, 0];
        row[at] = 1;
        row
    };
    let half = row(1, 1, [0, 375, 0, 0, 0]);
    assert_eq!(gases_of(&[half])[0], 0);
    assert_eq!(gases_of(&[half, step(8)])[0], 1);
    // 34.5 tonnes of NOx go down to 34.
    let half = row(1, 21, [1_000, 0, 0, 0, 500]);
    assert_eq!(gases_of(&[half])[3], 34);
    assert_eq!(gases_of(&[half, step(11)])[3], 35);
    // 1.5 tonnes of CH4, and one unit less: 10^13 - 1 are 9,999,999 x 10^6 and 999,999.
    let odd = row(1, 3, [0, 375, 0, 0, 0]);
    let less = [
        row(1, 2, [0, 375, 0, 0, 0]),
        row(2, 1, [0, 374, 0, 0, 0]),
        [3, 9_999_999, 1, 1, 1_000, 1_000, 1, 0, 1, 0, 0, 0],
        [4, 999_999, 1, 1, 1, 1, 1, 0, 1, 0, 0, 0],
    ];
    assert_eq!(gases_of(&[odd])[0], 2);
    assert_eq!(gases_of(&less)[0], 1);
}

/// "each summed exactly over the rows and rounded once": two halves of a tonne are one, and
/// a row's ratios are its own.
#[test]
fn rows_are_summed_before_rounding() {
    let half = |id| row(id, 1, [0, 375, 0, 0, 0]);
    assert_eq!(gases_of(&[half(1), half(2)])[0], 1);
    // N2O of unlike ratios: 11 x 7 x 10^13 x 50 x 1,000 / (7 x 10^19) is 0.55, and with
    // 500 x 300 it is 1.65; together 2.2, and not 1 + 2.
    let [one, two] = [
        row(1, 7, [50, 0, 0, 1_000, 0]),
        row(2, 7, [500, 0, 0, 300, 0]),
    ];
    assert_eq!([gases_of(&[one])[2], gases_of(&[two])[2]], [1, 2]);
    assert_eq!(gases_of(&[one, two])[2], 2);
    // A row without carbon brings nothing, whatever its ratios are.
    assert_eq!(gases_of(&[one, two, row(3, 0, [1_000; 5])])[2], 2);
}

/// Without the five figures of crops.
fn others(s: Worksheets) -> Worksheets {
    Worksheets {
        crop_carbon: 0,
        crop_ch4: 0,
        crop_co: 0,
        crop_n2o: 0,
        crop_nox: 0,
        ..s
    }
}

/// "residues are no net CO2", and no other figure changes either: the parameters are the
/// conversion's, the crops' ratios their own.
#[test]
fn crops_leave_the_other_figures() {
    let mut rng = Rng::new(241);
    for count in [1, 12, 13, 32] {
        let mut rows = Rows::good_in_later(&mut rng, [3, 3, 3, 3, 3, 3, count]);
        let figures_of = |rows: &Rows| sheets(&rows.to_bytes()).expect("good rows");
        let with = figures_of(&rows);
        let parameters = std::mem::replace(&mut rows.parameters, vec![[1; 6]]);
        let other = figures_of(&rows);
        assert_eq!(with.crop_carbon, other.crop_carbon);
        assert_eq!(gases(&with), gases(&other));
        rows.parameters = parameters;
        rows.crop.clear();
        let without = figures_of(&rows);
        assert_eq!((without.crop_carbon, gases(&without)), (0, [0; 4]));
        assert_eq!(others(with), without);
    }
}

/// The worked day with a crop: all other figures are those of the day, in any edition.
#[test]
fn the_worked_day_with_a_crop() {
    let day = sheets(&worked_day().to_bytes()).expect("the worked day");
    for edition in [2, 3] {
        let mut rows = worked_day().moved_to(edition);
        assert_eq!(sheets(&rows.to_bytes()), Ok(day));
        rows.crop = vec![WHEAT, LARGEST].into_iter().rev().collect();
        let with = sheets(&rows.to_bytes()).expect("good rows");
        assert_eq!(others(with), day);
        assert_eq!(with.crop_carbon, 10u128.pow(23) + 1_178_187_075_000_000_000);
    }
}

/// "Kind 8, editions 2 and 3": in edition 1 a block of it is refused 3, and rows of it are
/// refused 10 at their kind.
#[test]
fn edition_1_has_no_crops() {
    let answers = [1, 2, 3].map(|edition| {
        let mut rows = return_of(&[WHEAT]);
        rows.edition = edition;
        let written = RowLists::of(String::new(), &rows);
        [
            judge(&rows.to_bytes()).answer(),
            written.write(&mut [0; RETURN_ROOM], &mut [0]),
        ]
    });
    assert_eq!(answers, [[3001, 10_008], [0, 0], [0, 0]]);
}

/// Among the counts they stand behind the soils, and the scattered trees stay last.
#[test]
fn crops_are_counted() {
    let mut rows = return_of(&[LARGEST, WHEAT]);
    rows.edition = 2;
    rows.stock = vec![
        [1, 1, 1, 1, 1],
        [2, 0, 1, 1, 1],
        [3, 1, 1, 1, 1],
        [4, 1, 1, 1, 1],
    ];
    rows.soil = vec![[0; 9]];
    let mut counts = [7; COUNTS_ROOM];
    assert_eq!(count(&rows.to_bytes(), &mut counts), 0);
    assert_eq!(counts, [2, 0, 4, 0, 1, 0, 0, 1, 2, 3]);
}

/// The last five lines, behind the dry matter.
#[test]
fn crops_print_last() {
    let text = text(&return_of(&[WHEAT]).to_bytes());
    let text = std::str::from_utf8(text.as_bytes()).expect("the text is ASCII");
    let lines: Vec<&str> = text.lines().skip(31).collect();
    let due = [
        "charcoal_offsite 0",
        "unburned 0",
        "crop_carbon 1178187075000000000",
        "crop_ch4 785",
        "crop_co 16495",
        "crop_n2o 16",
        "crop_nox 562",
    ];
    assert_eq!(lines, due);
}

/// A crop row's numbers but the id, off its record.
fn numbers(record: &[u8]) -> [u128; 11] {
    let two = |at: usize| u128::from(u16::from_le_bytes([record[at], record[at + 1]]));
    let production = two(4) + 65_536 * two(6);
    std::array::from_fn(|i| if i == 0 { production } else { two(6 + 2 * i) })
}

/// Column by column over the rows of a return: the carbon, and each gas by its molecule as
/// in the workbook, in 12 x 10^16 or 28 x 10^19 parts of a tonne.
fn columns(bytes: &[u8]) -> (u128, [u128; 4]) {
    let blocks = bytes.chunks(512).filter(|block| block[0] == 8);
    let records = blocks.flat_map(|block| block[8..].chunks(40).take(block[1].into()));
    let (mut carbon, mut gases) = (0, [0; 4]);
    for row in records.map(numbers) {
        let [a, b, d, f, g, i, k, ch4, co, n2o, nox] = row;
        let c = a * b;
        let e = c * d;
        let h = e * f * g;
        let j = h * i;
        let l = j * k;
        carbon += j;
        let row = [16 * j * ch4, 28 * j * co, 44 * l * n2o, 92 * l * nox];
        gases.iter_mut().zip(row).for_each(|(gas, row)| *gas += row);
    }
    (carbon, gases)
}

/// The columns on many returns, and rounding as the request says it: no other whole number
/// is nearer, and at a half it is even.
#[test]
fn rounded_is_nearest() {
    let mut rng = Rng::new(242);
    let mut halves = 0;
    for _ in 0..10_000 {
        let bytes = case(&mut rng).bytes;
        let (carbon, due) = columns(&bytes);
        let s = sheets(&bytes).expect("made good");
        assert_eq!(s.crop_carbon, carbon);
        let tonne = [12, 12, 28_000, 28_000].map(|parts| parts * 10u128.pow(16));
        for ((above, below), rounded) in due.into_iter().zip(tonne).zip(gases(&s)) {
            let twice_off = 2 * (u128::from(rounded) * below).abs_diff(above);
            let even = twice_off == below && rounded.is_multiple_of(2);
            assert!(twice_off < below || even, "{above} / {below}: {rounded}");
            halves += u32::from(even);
        }
    }
    assert!(halves > 600, "{halves}");
}
