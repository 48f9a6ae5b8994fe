use super::*;
use crate::inputs;
use crate::make::{Rows, AFTER, BEFORE};
use crate::rng::Rng;
use crate::sheets::Worksheets;
use crate::weights::{alike, set, Factors};

/// Conversion rows with these ids, whose parts of one subtotal have these factors
/// and whose other parts are zero; and the harvest that they need.
fn with_parts(code: usize, parts: &[(u32, Factors)]) -> Rows {
    let mut rng = Rng::new(161);
    let row = |&(id, factors): &(u32, Factors)| {
        let mut row = [0; 15];
        row[0] = id;
        set(&mut rng, &mut row, code, factors);
        row
    };
    let mut rows = Rows {
        conversion: parts.iter().map(row).collect(),
        parameters: vec![[0; 6]],
        ..Rows::default()
    };
    rows.cover_with_more(&mut rng, 0);
    rows
}

fn found(rows: &Rows, code: u32) -> [u64; 3] {
    let mut room = [9; 3];
    assert_eq!(heaviest(&rows.to_bytes(), code, &mut room), 0);
    room
}

const LIGHT: Factors = [3, 2, 1, 1_000, 5];
const HEAVY: Factors = [3, 2, 2, 1_000, 5];
/// As heavy, by other factors.
const AS_HEAVY: Factors = [2, 3, 1, 1_000, 10];

#[test]
fn the_largest_part() {
    for code in 0..3 {
        for (ids, due) in [([0, 5, 9], 5), ([7, 8, u32::MAX], 8)] {
            let [a, b, c] = ids;
            let middle = [(a, LIGHT), (b, HEAVY), (c, LIGHT)];
            let rows = with_parts(code, &middle);
            assert_eq!(found(&rows, code as u32), [1, due, 60_000]);
            // The other subtotals are zero.
            for other in (0..3).filter(|&other| other != code) {
                assert_eq!(found(&rows, other as u32), [0, 0, 0]);
            }
        }
        let first = with_parts(code, &[(4, HEAVY), (5, LIGHT)]);
        assert_eq!(found(&first, code as u32), [1, 4, 60_000]);
        let last = with_parts(code, &[(4, LIGHT), (5, HEAVY)]);
        assert_eq!(found(&last, code as u32), [1, 5, 60_000]);
    }
}

/// "the lower id on a tie", in one block and over two.
#[test]
fn ties() {
    for code in 0..3 {
        let two = [(1, LIGHT), (3, HEAVY), (4, AS_HEAVY), (6, HEAVY)];
        assert_eq!(found(&with_parts(code, &two), code as u32), [1, 3, 60_000]);
        let turned = [(1, AS_HEAVY), (3, HEAVY)];
        assert_eq!(
            found(&with_parts(code, &turned), code as u32),
            [1, 1, 60_000]
        );
        let mut many: Vec<(u32, Factors)> = (100..132).map(|id| (id, LIGHT)).collect();
        (many[11].1, many[12].1, many[31].1) = (HEAVY, AS_HEAVY, HEAVY);
        assert_eq!(
            found(&with_parts(code, &many), code as u32),
            [1, 111, 60_000]
        );
        many[11].1 = LIGHT;
        assert_eq!(
            found(&with_parts(code, &many), code as u32),
            [1, 112, 60_000]
        );
    }
}

/// A subtotal is zero by any of its factors, by a thinner period, or without rows.
#[test]
fn none_where_the_subtotal_is_zero() {
    for code in 0..3 {
        for factor in 0..5 {
            let mut factors = HEAVY;
            factors[factor] = 0;
            // Decay has no oxidised fraction of its own.
            let is_zero = code < 2 || factor != 3;
            let rows = with_parts(code, &[(1, factors), (2, factors)]);
            assert_eq!(found(&rows, code as u32)[0], u64::from(!is_zero));
        }
        let mut thinner = with_parts(code, &[(1, HEAVY)]);
        let period = usize::from(code == 2);
        thinner.conversion[0][AFTER[period]] = thinner.conversion[0][BEFORE[period]] + 7;
        assert_eq!(found(&thinner, code as u32), [0, 0, 0]);
        assert_eq!(found(&with_parts(code, &[]), code as u32), [0, 0, 0]);
    }
}

/// 10^19, which only an unsigned word holds, and a part one step below it.
#[test]
fn the_largest_part_there_is() {
    let most = [1_000_000, 10_000, 1_000, 1_000, 1_000];
    let below = [999_999, 10_000, 1_000, 1_000, 1_000];
    for code in 0..3 {
        let rows = with_parts(code, &[(8, below), (9, most)]);
        assert_eq!(found(&rows, code as u32), [1, 9, 10u64.pow(19)]);
    }
}

/// "the largest exact part": not the largest as a double.
#[test]
fn parts_are_exact() {
    let mut rng = Rng::new(162);
    for code in [0, 1, 2, 0, 1, 2, 0, 1, 2] {
        let [light, heavy] = alike(&mut rng, code);
        for (ids, due) in [([2, 3], 3), ([3, 2], 2)] {
            let mut parts = [(ids[0], light), (ids[1], heavy)];
            parts.sort_unstable();
            let part = heavy.into_iter().map(u64::from).product();
            let found = found(&with_parts(code, &parts), code as u32);
            assert_eq!(found, [1, due, part]);
        }
    }
}

/// By another way: the rows sorted, the heavier and then the lower id first. A
/// part is at most its subtotal, and none is named just where that is zero.
#[test]
fn sorted_rows_say_the_same() {
    let mut accepted = 0;
    for index in 0..20_000 {
        let case = inputs::drawn_explained(&mut Rng::for_input(163, index));
        let Ok(checked) = check(&case.bytes) else {
            continue;
        };
        accepted += 1;
        let figures = Worksheets::of(checked);
        let subtotals = [figures.onsite, figures.offsite, figures.decay];
        for (code, row) in heaviest_rows(checked).into_iter().enumerate() {
            let part = |record| SUBTOTALS[code].2(Conversion::of(record));
            let rows = checked.records(1).map(|r| (u64::MAX - part(r), four(r, 0)));
            let mut rows: Vec<(u64, u32)> = rows.collect();
            rows.sort_unstable();
            let first = rows.first().map(|&(lack, id)| Heaviest {
                id,
                part: u64::MAX - lack,
            });
            let due = first.filter(|_| subtotals[code] > 0);
            assert_eq!(row, due, "{}", case.how);
            let part = row.map_or(0, |row| u128::from(row.part));
            assert!(part <= subtotals[code] && 32 * part >= subtotals[code]);
        }
    }
    assert!(accepted > 5_000, "{accepted}");
}

#[test]
fn refusals_come_in_order() {
    let good = with_parts(0, &[(1, HEAVY)]).to_bytes();
    let mut bad = good.clone();
    bad[0] ^= 1;
    for (bytes, code, room, due) in [
        (&bad, 3, 0, 2000),
        (&good, 3, 0, 11_000),
        (&good, u32::MAX, 3, 11_000),
        (&good, 2, 2, 9000),
        (&good, 0, 0, 9000),
        (&good, 0, 3, 0),
        (&good, 1, 3, 0),
        (&good, 2, 5, 0),
    ] {
        let mut lent = vec![77; room];
        assert_eq!(heaviest(bytes, code, &mut lent), due);
        let kept = if due == 0 { &lent[3..] } else { &lent };
        assert!(kept.iter().all(|&number| number == 77));
    }
}
