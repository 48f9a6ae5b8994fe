//! Worksheet 4-3 by hand.

use crate::figures::case;
use crate::make::Rows;
use crate::rng::Rng;
use crate::sheets::{figures, sheets, text, Worksheets, NUMBERS};

/// The parameters, which savannas have nothing to do with, and these rows.
fn return_of(rows: &[[u32; 14]]) -> Rows {
    Rows {
        edition: 2,
        parameters: vec![[500, 12, 60, 10, 7, 121]],
        savanna: rows.to_vec(),
        ..Rows::default()
    }
}

fn sheets_of(rows: &[[u32; 14]]) -> Worksheets {
    sheets(&return_of(rows).to_bytes()).expect("the rows are good")
}

/// CH4, CO, N2O and NOx.
fn gases_of(rows: &[[u32; 14]]) -> [u64; 4] {
    let s = sheets_of(rows);
    [s.savanna_ch4, s.savanna_co, s.savanna_n2o, s.savanna_nox]
}

/// The workbook's defaults for ten kha in the north of Sudan, with 6.6 t/ha.
const WORKED: [u32; 14] = [
    5, 1_000, 66, 850, 450, 800, 450, 1_000, 400, 6, 4, 60, 7, 121,
];

/// Column by column: C = 10 kha x 6.6 t/ha = 66 kt; E = C x 0.85 = 56.1 kt, of
/// which G = 0.45 E = 25.245 kt are live and H = 30.855 kt dead. J = 0.80 G =
/// 20.196 kt and 1.0 H = 30.855 kt; L = 0.45 x 20.196 = 9.0882 kt C and 0.40 x
/// 30.855 = 12.342 kt C, 21.4302 kt C in all. N = 0.006 L = 0.1285812 kt.
/// CH4: 21,430.2 x 0.004 x 16/12 = 114.29 t; CO: x 0.06 x 28/12 = 3,000.2 t.
/// N2O: 128.5812 x 0.007 x 44/28 = 1.41 t; NOx: x 0.121 x 46/14 = 51.1 t.
#[test]
fn a_worked_row() {
    assert_eq!(sheets_of(&[WORKED]).savanna_carbon, 21_430_200_000_000_000);
    assert_eq!(gases_of(&[WORKED]), [114, 3_000, 1, 51]);
}

/// "The dead fraction is 1,000 less the live one": 56.1 kt all live are 56.1 x
/// 0.8 x 0.45 = 20.196 kt C, all dead 56.1 x 1.0 x 0.4 = 22.44 kt C.
#[test]
fn all_live_and_all_dead() {
    let with = |live: u32| {
        let mut row = WORKED;
        row[4] = live;
        sheets_of(&[row]).savanna_carbon
    };
    assert_eq!(with(1_000), 20_196_000_000_000_000);
    assert_eq!(with(0), 22_440_000_000_000_000);
    // One thousandth either way: 2.244 x 10^13 less, or 2.0196 x 10^13 more.
    assert_eq!(with(1), 22_437_756_000_000_000);
    assert_eq!(with(999), 20_198_244_000_000_000);
}

/// Each field by itself takes away all carbon, or one part's.
#[test]
fn zero_fields() {
    let with = |at: usize| {
        let mut row = WORKED;
        row[at] = 0;
        sheets_of(&[row]).savanna_carbon
    };
    for at in [1, 2, 3] {
        assert_eq!(with(at), 0, "field {at}");
    }
    let (live, dead) = (9_088_200_000_000_000, 12_342_000_000_000_000);
    assert_eq!([5, 6].map(with), [dead; 2]);
    assert_eq!([7, 8].map(with), [live; 2]);
    for at in 9..14 {
        assert_eq!(with(at), live + dead, "field {at}");
    }
}

/// Each ratio goes into its own gas, and N/C into N2O and NOx alone.
#[test]
fn ratios_by_gas() {
    let with = |at: usize| {
        let mut row = WORKED;
        row[at] = 0;
        gases_of(&[row])
    };
    assert_eq!(with(9), [114, 3_000, 0, 0]);
    assert_eq!(with(10), [0, 3_000, 1, 51]);
    assert_eq!(with(11), [114, 0, 1, 51]);
    assert_eq!(with(12), [114, 3_000, 0, 51]);
    assert_eq!(with(13), [114, 3_000, 1, 0]);
}

const LARGEST: [u32; 14] = [
    0, 1_000_000, 10_000, 1_000, 400, 1_000, 1_000, 1_000, 1_000, 1_000, 1_000, 1_000, 1_000, 1_000,
];

/// 10^22 x 4/3 x 10^3 / 10^15 is 13,333,333,333.3 t of CH4, and so on.
#[test]
fn the_largest_row() {
    for live in [0, 1, 400, 1_000] {
        let mut row = LARGEST;
        row[4] = live;
        assert_eq!(sheets_of(&[row]).savanna_carbon, 10u128.pow(22));
        assert_eq!(
            gases_of(&[row]),
            [
                13_333_333_333,
                23_333_333_333,
                15_714_285_714,
                32_857_142_857
            ]
        );
    }
    let bytes = return_of(&[LARGEST]).to_bytes();
    // 10^22 is 542 x 2^64 + 1,864,712,049,423,024,128.
    let mut room = [7; NUMBERS];
    assert_eq!(figures(&bytes, &mut room), 0);
    assert_eq!(room[60..63], [0, 542, 1_864_712_049_423_024_128]);
    assert_eq!(room[63..66], [0, 0, 13_333_333_333]);
    assert_eq!(room[72..75], [0, 0, 32_857_142_857]);
}

#[test]
fn the_largest_rows() {
    let row = |id| {
        let mut row = LARGEST;
        row[0] = id;
        row
    };
    let rows: Vec<[u32; 14]> = (0..32).map(row).collect();
    let text = text(&return_of(&rows).to_bytes());
    let text = std::str::from_utf8(text.as_bytes()).expect("the text is ASCII");
    assert!(text.contains("\nsavanna_carbon 320000000000000000000000\n"));
    assert_eq!(
        gases_of(&rows),
        [
            426_666_666_667,
            746_666_666_667,
            502_857_142_857,
            1_051_428_571_429
        ]
    );
}

/// Carbon of `times` x 10^12 with these ratios.
fn row(id: u32, times: u32, ratios: [u32; 5]) -> [u32; 14] {
    let mut row = [
        id, times, 1, 1_000, 321, 1_000, 1_000, 1_000, 1_000, 0, 0, 0, 0, 0,
    ];
    row[9..].copy_from_slice(&ratios);
    row
}

/// By hand, each gas at 1, 3, 5 and 7 times its smallest half in these steps:
/// 0.5, 3.5, 5.5 and 11.5 tonnes.
#[test]
fn halves_go_to_the_even_neighbour() {
    let times = [1, 3, 5, 7];
    let ch4 = times.map(|times| gases_of(&[row(1, times, [0, 375, 0, 0, 0])])[0]);
    assert_eq!(ch4, [0, 2, 2, 4]);
    let co = times.map(|times| gases_of(&[row(1, 2 * times, [0, 0, 750, 0, 0])])[1]);
    assert_eq!(co, [4, 10, 18, 24]);
    let n2o = times.map(|times| gases_of(&[row(1, 7 * times, [1_000, 0, 0, 500, 0])])[2]);
    assert_eq!(n2o, [6, 16, 28, 38]);
    let nox = times.map(|times| gases_of(&[row(1, 7 * times, [1_000, 0, 0, 0, 500])])[3]);
    assert_eq!(nox, [12, 34, 58, 80]);
}

/// The smallest step beside a half of CH4: carbon of 1 by a ratio of 1.
#[test]
fn one_step_beside_a_half() {
    let step = [2, 1, 1, 1, 1, 1, 1, 0, 0, 0, 1, 0, 0, 0];
    let half = row(1, 1, [0, 375, 0, 0, 0]);
    assert_eq!(gases_of(&[half])[0], 0);
    assert_eq!(gases_of(&[half, step])[0], 1);
    // 1.5 tonnes, and one unit less: 10^12 - 1 are 999,999 x 10^6 and 999,999.
    let odd = row(1, 3, [0, 375, 0, 0, 0]);
    let less = [
        row(1, 2, [0, 375, 0, 0, 0]),
        row(2, 1, [0, 374, 0, 0, 0]),
        [3, 999_999, 1, 1, 0, 0, 0, 1, 1_000, 0, 1, 0, 0, 0],
        [4, 999_999, 1, 1, 1, 1, 1, 0, 0, 0, 1, 0, 0, 0],
    ];
    assert_eq!(gases_of(&[odd])[0], 2);
    assert_eq!(gases_of(&less)[0], 1);
}

/// "each gas summed exactly over the rows and rounded once": two halves of a
/// tonne are one, and a row's ratio is its own.
#[test]
fn rows_are_summed_before_rounding() {
    let half = |id| row(id, 1, [0, 375, 0, 0, 0]);
    assert_eq!(gases_of(&[half(1), half(2)])[0], 1);
    // N2O of unlike ratios: 11 x 7 x 10^12 x 50 x 1,000 / (7 x 10^18) is 0.55, and
    // with 500 x 300 it is 1.65; together 2.2, and not 1 + 2.
    let [one, two] = [
        row(1, 7, [50, 0, 0, 1_000, 0]),
        row(2, 7, [500, 0, 0, 300, 0]),
    ];
    assert_eq!([gases_of(&[one])[2], gases_of(&[two])[2]], [1, 2]);
    assert_eq!(gases_of(&[one, two])[2], 2);
    // A row without carbon brings nothing, whatever its ratios are.
    assert_eq!(gases_of(&[one, two, row(3, 0, [1_000; 5])])[2], 2);
}

/// "There is no net CO2 here", and no other figure changes either: the parameters
/// are the conversion's, the savannas' ratios their own.
#[test]
fn savannas_leave_the_other_figures() {
    let mut rng = Rng::new(141);
    for count in [1, 12, 13, 32] {
        let mut rows = Rows::good_in(&mut rng, 2, [3, 3, 3, 3, count]);
        let with = sheets(&rows.to_bytes()).expect("good rows");
        rows.parameters[0] = [1; 6];
        let other = sheets(&rows.to_bytes()).expect("good rows");
        let savannas = |s: &Worksheets| {
            let gases = [s.savanna_ch4, s.savanna_co, s.savanna_n2o, s.savanna_nox];
            (s.savanna_carbon, gases)
        };
        assert_eq!(savannas(&with), savannas(&other));
        rows.savanna.clear();
        let without = sheets(&rows.to_bytes()).expect("good rows");
        assert_eq!(savannas(&without), (0, [0; 4]));
        let alone = Worksheets {
            savanna_carbon: 0,
            savanna_ch4: 0,
            savanna_co: 0,
            savanna_n2o: 0,
            savanna_nox: 0,
            ..other
        };
        assert_eq!(alone, without);
    }
}

/// The last five lines, after the count of thinner periods.
#[test]
fn savannas_print_behind_the_others() {
    let text = text(&return_of(&[WORKED]).to_bytes());
    let text = std::str::from_utf8(text.as_bytes()).expect("the text is ASCII");
    let lines: Vec<&str> = text.lines().skip(18).take(7).collect();
    let due = [
        "uptake_co2 0",
        "thinner 0",
        "savanna_carbon 21430200000000000",
        "savanna_ch4 114",
        "savanna_co 3000",
        "savanna_n2o 1",
        "savanna_nox 51",
    ];
    assert_eq!(lines, due);
}

/// A savanna row's numbers but the id, off its record.
fn numbers(record: &[u8]) -> [u128; 13] {
    let two = |at: usize| u128::from(u16::from_le_bytes([record[at], record[at + 1]]));
    let area = two(4) + 65_536 * two(6);
    std::array::from_fn(|i| if i == 0 { area } else { two(6 + 2 * i) })
}

/// Column by column over the rows of a return: the carbon, and each gas by its
/// molecule as in the workbook, in 12 x 10^15 or 28 x 10^18 parts of a tonne.
fn columns(bytes: &[u8]) -> (u128, [u128; 4]) {
    let blocks = bytes.chunks(512).filter(|block| block[0] == 6);
    let records = blocks.flat_map(|block| block[8..].chunks(40).take(block[1].into()));
    let (mut carbon, mut gases) = (0, [0; 4]);
    for row in records.map(numbers) {
        let [a, b, d, f, live_i, live_k, dead_i, dead_k, m, ch4, co, n2o, nox] = row;
        let e = a * b * d;
        let (g, h) = (e * f, 1_000 * e - e * f);
        let l = g * live_i * live_k + h * dead_i * dead_k;
        let n = l * m;
        carbon += l;
        let row = [16 * l * ch4, 28 * l * co, 44 * n * n2o, 92 * n * nox];
        gases.iter_mut().zip(row).for_each(|(gas, row)| *gas += row);
    }
    (carbon, gases)
}

/// The columns on many returns, and rounding as the request says it: no other
/// whole number is nearer, and at a half it is even.
#[test]
fn rounded_is_nearest() {
    let mut rng = Rng::new(142);
    let mut halves = 0;
    for _ in 0..10_000 {
        let bytes = case(&mut rng).bytes;
        let (carbon, gases) = columns(&bytes);
        let s = sheets(&bytes).expect("made good");
        assert_eq!(s.savanna_carbon, carbon);
        let tonne = [12, 12, 28_000, 28_000].map(|parts| parts * 10u128.pow(15));
        let rounded = [s.savanna_ch4, s.savanna_co, s.savanna_n2o, s.savanna_nox];
        for ((above, below), rounded) in gases.into_iter().zip(tonne).zip(rounded) {
            let twice_off = 2 * (u128::from(rounded) * below).abs_diff(above);
            let even = twice_off == below && rounded.is_multiple_of(2);
            assert!(twice_off < below || even, "{above} / {below}: {rounded}");
            halves += u32::from(even);
        }
    }
    assert!(halves > 1_000, "{halves}");
}
