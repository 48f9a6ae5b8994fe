//! "Grass thinner than the crop" (02, §3): by hand, and against returns whose
//! densities after were lowered to those before.

use super::*;
use crate::doubles::{subtotal, subtotals};
use crate::inputs;
use crate::judge::{check, judge};
use crate::kinds::{COUNTS_ROOM, KINDS};
use crate::make::{Rows, AFTER, BEFORE};
use crate::reader::read;
use crate::rng::Rng;
use crate::sheets::{figures, sheets, text, Worksheets, NUMBERS};
use crate::text::FIGURES;
use crate::writer::write;

/// A row of which everything is burnt or decays, with these densities.
fn row(id: u32, [year, ten_years]: [[u32; 2]; 2]) -> [u32; 15] {
    let [[before, after], [old_before, old_after]] = [year, ten_years];
    [
        id, 200, before, after, 400, 900, 500, 200, 900, 500, 300, old_before, old_after, 300, 500,
    ]
}

/// With the harvest that they need, which is none where nothing is cleared.
fn return_of(rows: &[[u32; 15]]) -> Rows {
    let mut rows = Rows {
        conversion: rows.to_vec(),
        parameters: vec![[500, 12, 60, 10, 7, 121]],
        ..Rows::default()
    };
    rows.cover_with_more(&mut Rng::new(133), 0);
    rows
}

fn sheets_of(rows: &[[u32; 15]]) -> Worksheets {
    sheets(&return_of(rows).to_bytes()).expect("the rows are good")
}

/// L, on-site, off-site and decay carbon, and the count.
fn sums_of(rows: &[[u32; 15]]) -> (u64, u128, u128, u128, u64) {
    let s = sheets_of(rows);
    (s.l, s.onsite, s.offsite, s.decay, s.thinner)
}

const L: u64 = 36_000_000;
const ONSITE: u128 = 32_400_000_000_000;
const OFFSITE: u128 = 16_200_000_000_000;
const DECAY: u128 = 40_500_000_000_000;
/// The worked day's densities, whose sums are the four above.
const DAY: [u32; 2] = [1_000, 100];
/// "grassland of 4.9 t/ha turned to a crop at the workbook's default of 10 t/ha"
const GRASS: [u32; 2] = [49, 100];

#[test]
fn differences_by_hand() {
    for (before, after, difference, thinner) in [
        (100, 100, 0, false),
        (101, 100, 1, false),
        (100, 101, 0, true),
        (49, 100, 0, true),
        (10_000, 0, 10_000, false),
        (0, 10_000, 0, true),
        (0, 0, 0, false),
        (0, 1, 0, true),
        (9_999, 10_000, 0, true),
    ] {
        let period = Period {
            area: 1,
            before,
            after,
        };
        let found = (period.difference(), period.is_thinner());
        assert_eq!(found, (difference, thinner), "{before}, {after}");
    }
}

#[test]
fn each_period_counts_on_its_own() {
    assert_eq!(
        sums_of(&[row(1, [DAY, DAY])]),
        (L, ONSITE, OFFSITE, DECAY, 0)
    );
    assert_eq!(sums_of(&[row(1, [GRASS, DAY])]), (0, 0, 0, DECAY, 1));
    assert_eq!(sums_of(&[row(1, [DAY, GRASS])]), (L, ONSITE, OFFSITE, 0, 1));
    assert_eq!(sums_of(&[row(1, [GRASS, GRASS])]), (0, 0, 0, 0, 2));
}

/// 4.9 t/ha to 10 t/ha with nothing else: every figure is 0 but the count.
#[test]
fn grass_turned_to_a_crop() {
    let bytes = return_of(&[row(1, [GRASS, [0, 0]])]).to_bytes();
    let text = text(&bytes);
    let text = std::str::from_utf8(text.as_bytes()).expect("the text is ASCII");
    let zeros = text.lines().filter(|line| line.ends_with(" 0")).count();
    assert_eq!((zeros, text.lines().count()), (FIGURES - 1, FIGURES));
    assert_eq!(text.lines().nth(19), Some("thinner 1"));
}

/// A thinner row takes nothing from the others.
#[test]
fn the_other_rows_count_in_full() {
    let [day, grass] = [row(2, [DAY, DAY]), row(3, [GRASS, [0, 10_000]])];
    let before = row(1, [[0, 10_000], [9_999, 10_000]]);
    let day_alone = sheets_of(&[day]);
    let all = sheets_of(&[before, day, grass]);
    assert_eq!(all.thinner, 4);
    assert_eq!(Worksheets { thinner: 0, ..all }, day_alone);
}

#[test]
fn at_most_64_pairs() {
    let rows: Vec<[u32; 15]> = (0..32).map(|id| row(id, [GRASS, GRASS])).collect();
    let bytes = return_of(&rows).to_bytes();
    assert_eq!(sheets_of(&rows).thinner, 64);
    let mut room = [7; NUMBERS];
    assert_eq!(figures(&bytes, &mut room), 0);
    assert_eq!(room[57..61], [0, 0, 64, 0]);
}

/// "its difference counts as 0, in the exact sums, in L and in the doubles": all
/// is as if after were before, but for the count.
#[test]
fn thinner_is_as_if_after_were_before() {
    let mut thinner = 0;
    for index in 0..3_000 {
        let mut rng = Rng::for_input(131, index);
        let mut rows = Rows::good_from(&mut rng, 1);
        let bytes = rows.to_bytes();
        let mut lowered = 0;
        for row in &mut rows.conversion {
            for (before, after) in BEFORE.into_iter().zip(AFTER) {
                lowered += u64::from(row[after] > row[before]);
                row[after] = row[after].min(row[before]);
            }
        }
        let [found, due] = [bytes.clone(), rows.to_bytes()];
        let doubles = [&found, &due].map(|bytes| subtotals(bytes).expect("good rows"));
        let [a, b] = doubles.map(|doubles| doubles.in_order().map(f64::to_bits));
        assert_eq!(a, b);
        let [found, due] = [found, due].map(|bytes| sheets(&bytes).expect("good rows"));
        assert_eq!((found.thinner, due.thinner), (lowered, 0));
        assert_eq!(
            Worksheets {
                thinner: 0,
                ..found
            },
            due
        );
        thinner += lowered;
    }
    assert!(thinner > 10_000, "{thinner}");
}

/// The count, off the bytes once more, on a short run of the comparison.
#[test]
fn pairs_are_counted() {
    let mut accepted = 0;
    for index in 0..20_000 {
        let case = inputs::with_figures(index, &mut Rng::for_input(132, index as u64));
        let Ok(checked) = check(&case.bytes) else {
            continue;
        };
        let above = |at: usize| {
            let records = checked.records(1);
            let after = |r: &&Record| (r[at + 3], r[at + 2]) > (r[at + 1], r[at]);
            records.filter(after).count() as u64
        };
        let due = above(8) + above(28);
        assert_eq!(Worksheets::of(checked).thinner, due, "{}", case.how);
        accepted += 1;
    }
    assert!(accepted > 5_000, "{accepted}");
}

/// "01's order closes over it": where 8 stood, the next number is tried.
#[test]
fn the_order_closes_over_8() {
    let rows = return_of(&[row(1, [GRASS, GRASS])]);
    let bytes = rows.to_bytes();
    assert_eq!(judge(&bytes).answer(), 0);
    assert_eq!(figures(&bytes, &mut [0; NUMBERS - 1]), 9000);
    assert_eq!(subtotal(&bytes, 3, &mut []), 11_000);
    assert_eq!(subtotal(&bytes, 2, &mut [0; 7]), 9000);
    assert_eq!(read(&bytes, &mut [0; 14], &mut [0; COUNTS_ROOM]), 9001);
    let (area, mut lengths) = (rows.lists().concat(), [0; KINDS.len()]);
    let written = |lengths: &[u32], room: &mut [u8]| write(1, &area, lengths, room, &mut [0]);
    lengths[..3].copy_from_slice(&[15, 0, 6]);
    assert_eq!(written(&lengths, &mut []), 10_003);
    lengths[..4].copy_from_slice(&[15, 0, 0, 6]);
    assert_eq!(written(&lengths, &mut [0; 1_023]), 9000);
    let mut room = [0; 1_024];
    assert_eq!(written(&lengths, &mut room), 0);
    assert_eq!(room, bytes[..]);
}

/// A thinner row's doubles are +0, and leave no trace in a sum.
#[test]
fn doubles_of_thinner_rows() {
    let [day, grass] = [row(5, [DAY, DAY]), row(7, [GRASS, GRASS])];
    let bits = |rows: &[[u32; 15]]| {
        let found = subtotals(&return_of(rows).to_bytes()).expect("good rows");
        found.in_order().map(f64::to_bits)
    };
    assert_eq!(bits(&[grass]), [0; 3]);
    let due = [
        32_400_000_000_000.0,
        16_200_000_000_000.0,
        40_500_000_000_000.0,
    ];
    assert_eq!(bits(&[day, grass]), due.map(f64::to_bits));
}
