//! Worksheet 5-4 by hand.

use super::*;

/// The parameters alone and these rows of abandoned land.
fn with_abandoned(rows: &[[u32; 7]]) -> Rows {
    Rows {
        edition: 2,
        abandoned: rows.to_vec(),
        ..zero_parameters()
    }
}

fn uptake(rows: &[[u32; 7]]) -> (u64, u64) {
    let figures = figures_of(&with_abandoned(rows));
    (figures.uptake, figures.uptake_co2)
}

/// By hand: 10 kha at 3 t/ha and 20 kha at 1 t/ha, half of it carbon, are 15 and
/// 10 kt C. 25 kt C by 11/3 are 91,666.7 tonnes of CO2.
#[test]
fn abandoned_land_of_both_ages() {
    let row = [1, 1_000, 300, 500, 2_000, 100, 500];
    assert_eq!(uptake(&[row]), (250_000_000, 91_667));
    assert_eq!(
        uptake(&[[1, 1_000, 300, 500, 0, 100, 500]]),
        (150_000_000, 55_000)
    );
    assert_eq!(
        uptake(&[[1, 1_000, 0, 500, 2_000, 100, 500]]),
        (100_000_000, 36_667)
    );
    let other = [2, 30, 10, 1_000, 0, 0, 0];
    assert_eq!(uptake(&[row, other]), (250_300_000, 91_777));
}

/// 11 x 15,000 / 30,000 = 5.5, 45,000 is 16.5 and 75,000 is 27.5: each goes to
/// its even neighbour.
#[test]
fn uptake_of_a_half() {
    assert_eq!(uptake(&[[1, 15_000, 1, 1, 0, 0, 0]]), (15_000, 6));
    assert_eq!(uptake(&[[1, 0, 0, 0, 15_000, 1, 1]]), (15_000, 6));
    assert_eq!(uptake(&[[1, 14_999, 1, 1, 0, 0, 0]]), (14_999, 5));
    assert_eq!(uptake(&[[1, 40_000, 1, 1, 4_999, 1, 1]]), (44_999, 16));
    assert_eq!(uptake(&[[1, 40_000, 1, 1, 5_000, 1, 1]]), (45_000, 16));
    assert_eq!(uptake(&[[1, 40_000, 1, 1, 5_001, 1, 1]]), (45_001, 17));
    assert_eq!(uptake(&[[1, 70_000, 1, 1, 5_000, 1, 1]]), (75_000, 28));
    // "rounded once": two halves are 11, not 12.
    assert_eq!(uptake(&[[1, 15_000, 1, 1, 15_000, 1, 1]]), (30_000, 11));
    let two = [[1, 15_000, 1, 1, 0, 0, 0], [2, 0, 0, 0, 15_000, 1, 1]];
    assert_eq!(uptake(&two), (30_000, 11));
}

#[test]
fn the_largest_uptake() {
    let row = |id| [id, 10_000_000, 10_000, 1_000, 10_000_000, 10_000, 1_000];
    let rows: Vec<[u32; 7]> = (0..32).map(row).collect();
    assert_eq!(uptake(&rows), (6_400_000_000_000_000, 2_346_666_666_667));
}

/// "requested figures print after 01's lines", and change none of them.
#[test]
fn abandoned_land_leaves_the_other_figures() {
    let mut rows = worked_day();
    rows.edition = 2;
    assert_eq!(text_of(&rows.to_bytes()), WORKED_TEXT);
    rows.abandoned = vec![[7, 1_000, 300, 500, 2_000, 100, 500]];
    let due = WORKED_TEXT
        .replace("uptake 0", "uptake 250000000")
        .replace("uptake_co2 0", "uptake_co2 91667");
    assert_eq!(text_of(&rows.to_bytes()), due);
    rows.edition = 1;
    assert_eq!(text_of(&rows.to_bytes()), "refused 3 4\n");
}

/// Three numbers for each figure: those of 5-4 stand behind the paper's 17.
#[test]
fn numbers_of_the_figures() {
    let bytes = with_abandoned(&[[1, 1_000, 300, 500, 2_000, 100, 500]]).to_bytes();
    let mut room = [7; NUMBERS + 1];
    assert_eq!(figures(&bytes, &mut room[..NUMBERS - 1]), 9000);
    assert_eq!(room, [7; NUMBERS + 1]);
    assert_eq!(figures(&bytes, &mut room), 0);
    assert_eq!(room[..51], [0; 51]);
    assert_eq!(room[51..57], [0, 0, 250_000_000, 0, 0, 91_667]);
    assert_eq!(room[57..NUMBERS], [0; NUMBERS - 57]);
    assert_eq!(room[NUMBERS], 7);
}
