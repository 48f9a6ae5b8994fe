use super::*;
use crate::judge::{judge, Counts, Verdict};
use crate::rng::Rng;

/// Each number of each kind but the ids.
#[test]
fn limited_fields_come_once_each() {
    let found: Vec<(u8, usize)> = (0..LIMITED).map(limited).collect();
    assert!(found.is_sorted_by(|a, b| a < b));
    let numbers: usize = KINDS.iter().map(|kind| kind.numbers).sum();
    assert_eq!(found.len(), numbers - WITH_IDS.len());
    assert_eq!(found[..2], [(1, 1), (1, 2)]);
    assert!(found.contains(&(4, 0)) && !found.contains(&(5, 0)));
}

/// By hand: a stock record has zeros at 5 and from 14 on, the parameters have them in front too.
#[test]
fn zeros_lie_between_the_fields() {
    assert_eq!(zero_areas(2, 1)[..2], [13..14, 22..48]);
    assert_eq!(zero_areas(4, 1)[..2], [8..12, 24..48]);
    assert_eq!(zero_areas(1, 12), {
        let used = (0..12).map(|record| 8 + 40 * record + 36..48 + 40 * record);
        used.chain([488..508]).collect::<Vec<_>>()
    });
}

#[test]
fn good_rows_are_accepted_with_their_counts() {
    let mut rng = Rng::new(3);
    for count in 0..=MOST_ROWS {
        for counts in [[count, 0, 0], [0, count, 32], [32, 32, count], [count; 3]] {
            let rows = Rows::good(&mut rng, counts);
            assert_eq!(judge(&rows.to_bytes()), accepted(&rows, &counts));
        }
    }
}

/// With these numbers of rows of the kinds with ids, and one of parameters.
fn accepted(of: &Rows, counts: &[usize]) -> Verdict {
    let mut rows = [0; KINDS.len()];
    rows[3] = 1;
    for (&kind, &count) in WITH_IDS.iter().zip(counts) {
        rows[usize::from(kind) - 1] = count as u32;
    }
    Verdict::Accepted(Counts {
        edition: of.edition,
        rows,
        scattered: of.trees() as u32,
    })
}

#[test]
fn later_kinds_are_accepted_in_later_editions() {
    let mut rng = Rng::new(5);
    for count in 0..=MOST_ROWS {
        for nth in FIRST_WITH_IDS..WITH_IDS.len() {
            for others in [0, 32, MOST_ROWS - count] {
                let mut counts = [others; WITH_IDS.len()];
                counts[nth] = count;
                for edition in LATER_EDITIONS {
                    let mut rows = Rows::good_in(&mut rng, edition, counts);
                    assert_eq!(judge(&rows.to_bytes()), accepted(&rows, &counts));
                    rows.edition = 1;
                    let first = judge(&rows.to_bytes()) == accepted(&rows, &counts);
                    assert_eq!(first, !later(&counts));
                }
            }
        }
    }
}

/// The most blocks of each edition come often.
#[test]
fn full_returns_come() {
    let mut rng = Rng::new(6);
    let mut full = [0; 3];
    for _ in 0..2_000 {
        let rows = Rows::any_good(&mut rng);
        let blocks = rows.to_bytes().len() / BLOCK;
        let most = [FIRST_FULL, MOST_BLOCKS, MOST_BLOCKS][usize::from(rows.edition) - 1];
        full[usize::from(rows.edition) - 1] += u32::from(blocks == most);
    }
    assert!(full.iter().all(|&times| times > 30), "{full:?}");
}

#[test]
fn ids_reach_both_ends() {
    let mut rng = Rng::new(4);
    let lists: Vec<_> = (0..60).map(|_| good_ids(&mut rng, 32)).collect();
    assert!(lists
        .iter()
        .all(|ids| ids.is_sorted_by(|a, b| a < b) && ids.len() == 32));
    assert!(lists.iter().any(|ids| ids[0] == 0 && ids[31] == u32::MAX));
}

/// Thinner periods are by one, by the most there is and by all sizes between, and
/// rows with none, with either and with both come in any case.
#[test]
fn thinner_rows_come_of_all_sizes() {
    let mut rng = Rng::new(7);
    let mut sizes = [0; 6];
    let mut rows = [[0; 2]; 2];
    for _ in 0..2_000 {
        for row in Rows::good(&mut rng, [32, 0, 0]).conversion {
            let excess = [0, 1].map(|p| row[AFTER[p]].saturating_sub(row[BEFORE[p]]));
            let [year, ten_years] = excess.map(|excess| usize::from(excess > 0));
            rows[year][ten_years] += 1;
            for excess in excess.into_iter().filter(|&excess| excess > 0) {
                sizes[match excess {
                    1 => 0,
                    2..100 => 1,
                    100..1_000 => 2,
                    1_000..9_999 => 3,
                    9_999 => 4,
                    _ => 5,
                }] += 1;
            }
        }
    }
    assert!(sizes.iter().all(|&times| times > 20), "{sizes:?}");
    let least = rows.iter().flatten().min();
    assert!(least.is_some_and(|&times| times > 1_000), "{rows:?}");
}

/// By hand, with primes: 2 x 3 x 5 x (7 x 11 x 13 + 993 x 17 x 19).
#[test]
fn carbon_of_a_savanna() {
    let row = [9, 2, 3, 5, 7, 11, 13, 17, 19, 1, 1, 1, 1, 1];
    assert_eq!(savanna_carbon(&row), [30_030, 9_622_170]);
}

/// Rows that burn are without carbon and with the most there is, and of all sizes between,
/// in returns of any number of them and in those of 32.
#[test]
fn burnt_rows_come_of_all_sizes() {
    let mut rng = Rng::new(8);
    for of in [&SAVANNAS, &CROPS] {
        let powers = of.largest.ilog10() as usize;
        let mut sizes = vec![0; powers + 2];
        let mut all_largest = 0;
        for _ in 0..1_000 {
            let mut counts = [0; WITH_IDS.len()];
            counts[place_of(of.kind).expect("a kind with ids")] = 32;
            let rows = Rows::good_in_later(&mut rng, counts);
            let found: Vec<u128> = rows.each(of.kind).map(of.carbon).collect();
            all_largest += u32::from(found.iter().all(|&carbon| carbon == of.largest));
            for carbon in found {
                sizes[carbon
                    .checked_ilog10()
                    .map_or(0, |power| power as usize + 1)] += 1;
            }
        }
        // None, and every power of ten up to the largest.
        assert!(sizes.iter().all(|&times| times > 0), "{sizes:?}");
        assert!(sizes[0] > 1_000 && sizes[powers + 1] > 1_000, "{sizes:?}");
        assert!(all_largest > 50, "{all_largest}");
    }
}

/// Savannas are all live, all dead and both.
#[test]
fn savannas_are_live_and_dead() {
    let mut rng = Rng::new(10);
    let mut live = [0; 3];
    for _ in 0..1_000 {
        for row in Rows::good_in(&mut rng, 2, [0, 0, 0, 0, 32]).savanna {
            live[match row[LIVE] {
                0 => 0,
                1_000 => 1,
                _ => 2,
            }] += 1;
        }
    }
    assert!(live.iter().all(|&times| times > 2_000), "{live:?}");
}

/// Rows of trees are none, one, some and all, in the editions that have them; the last has
/// none.
#[test]
fn trees_come_in_all_numbers() {
    let mut rng = Rng::new(9);
    for edition in ALL_EDITIONS {
        let mut came = [0; 5];
        for _ in 0..1_000 {
            let rows = Rows::good_in(&mut rng, edition, [1, 8, 1]);
            came[match rows.trees() {
                0 => 0,
                1 => 1,
                2..7 => 2,
                7 => 3,
                _ => 4,
            }] += 1;
        }
        if edition == WITHOUT_TREES {
            assert_eq!(came, [1_000, 0, 0, 0, 0]);
        } else {
            assert!(came.iter().all(|&times| times > 8), "{came:?}");
        }
    }
}

/// By hand: rows moved to another edition are the same, but for the trees of the last.
#[test]
fn rows_move_to_another_edition() {
    let mut day = worked_day();
    day.stock = vec![[1, 1, 680, 1000, 500], [2, 0, 1, 1, 1]];
    for edition in [1, 2] {
        let moved = day.clone().moved_to(edition);
        assert_eq!((moved.edition, moved.trees()), (edition, 1));
    }
    let moved = day.moved_to(3);
    assert_eq!((moved.edition, moved.trees()), (3, 0));
    assert_eq!(moved.stock, [[1, 0, 680, 1000, 500], [2, 0, 1, 1, 1]]);
}
