use super::*;
use crate::judge::judge;
use crate::make::MOST_ROWS;

/// By hand: type 5 has 7 and 7, type 3 has 2 and 1, and stands later.
#[test]
fn sums_by_hand() {
    let row = |own: u32, now: u32, then: u32| [0, 9, own, now, then, 2, 3, 5, 7];
    let mut rows = vec![row(5, 3, 7), row(9, 1, 1), row(5, 4, 0), row(3, 2, 1)];
    let due = BTreeMap::from([(3, [2, 1]), (5, [7, 7]), (9, [1, 1])]);
    assert_eq!(area_sums(&rows), due);
    assert_eq!(land_sums(&rows), BTreeMap::from([(9, [10, 9])]));
    assert_eq!(uneven_type(&rows), Some((3, 3)));
    rows[3][4] = 2;
    assert_eq!(uneven_type(&rows), None);
    rows[2][3] = 5;
    assert_eq!(uneven_type(&rows), Some((5, 0)));
    assert_eq!(uneven_type(&[]), None);
    assert_eq!(soil_carbon(&rows[0]), 210);
}

/// What every drawn row is like: within its limits, and its type even.
#[test]
fn soils_come_out_even() {
    let mut rng = Rng::new(201);
    let [mut one, mut few, mut different, mut ends, mut alike] = [0; 5];
    for turn in 0..3_000 {
        let count = 1 + turn % MOST_ROWS;
        let rows = Rows::good_in(&mut rng, 2, [0, 0, 0, 0, 0, count]);
        assert_eq!(judge(&rows.to_bytes()).answer(), 0);
        assert_eq!(uneven_type(&rows.soil), None);
        let types = area_sums(&rows.soil);
        one += u32::from(count > 1 && types.len() == 1);
        few += u32::from((2..=4).contains(&types.len()));
        different += u32::from(count > 4 && types.len() == count);
        ends += u32::from(types.contains_key(&0) && types.contains_key(&65_535));
        alike += u32::from(types.contains_key(&1) && types.contains_key(&257));
    }
    let all = [one, few, different, ends, alike];
    assert!(all.iter().all(|&times| times > 100), "{all:?}");
}

/// Every other area shares the same sum, up to all rows at their limits.
#[test]
fn areas_are_shared_out() {
    let mut rng = Rng::new(202);
    for _ in 0..2_000 {
        let count = 1 + rng.below(MOST_ROWS);
        let areas: Vec<u32> = (0..count)
            .map(|_| good_value(&mut rng, MOST_AREA))
            .collect();
        let shared = shared_out(&mut rng, &areas);
        assert_eq!(shared.len(), count);
        assert!(shared.iter().all(|&area| area <= MOST_AREA));
        assert_eq!(shared.iter().sum::<u32>(), areas.iter().sum::<u32>());
    }
    assert_eq!(
        shared_out(&mut rng, &[MOST_AREA; 32]),
        [MOST_AREA; 32].to_vec()
    );
}

/// Of rows that are alone, few and many: always uneven, and within the limits.
#[test]
fn unbalanced_rows_are_refused_by_13() {
    let mut rng = Rng::new(203);
    let mut ways = BTreeMap::new();
    for turn in 0..6_000 {
        let count = 1 + turn % MOST_ROWS;
        let mut rows = Rows::good_in(&mut rng, 2, [0, 0, 0, 0, 0, count]);
        let how = unbalance(&mut rng, &mut rows.soil);
        let (_, first) = uneven_type(&rows.soil).expect("an uneven type");
        // The parameters are block 0.
        let due = 13_000 + 12 + first as u32;
        assert_eq!(judge(&rows.to_bytes()).answer(), due, "{how}");
        *ways.entry(how).or_insert(0) += 1;
    }
    assert_eq!(ways.len(), 7, "{ways:?}");
    assert!(ways.values().all(|&times| times > 100), "{ways:?}");
}

/// The areas that are kept are kept, and the others come out even with them.
#[test]
fn either_area_is_kept() {
    let mut rng = Rng::new(204);
    for kept in SOIL_AREAS {
        for _ in 0..300 {
            let mut rows = Rows::good_in(&mut rng, 2, [0, 0, 0, 0, 0, 20]);
            rows.soil.iter_mut().for_each(|row| {
                row[kept] = good_value(&mut rng, MOST_AREA);
            });
            let before: Vec<u32> = rows.soil.iter().map(|row| row[kept]).collect();
            rows.even_soils(&mut rng, kept);
            let after: Vec<u32> = rows.soil.iter().map(|row| row[kept]).collect();
            assert_eq!(before, after);
            assert_eq!(judge(&rows.to_bytes()).answer(), 0);
        }
    }
}
