use super::*;
use crate::inputs;
use crate::judge::{check, Record};
use crate::make::{worked_day, Rows};
use crate::rng::Rng;
use crate::sheets::sheets;

/// A conversion record with this area, these densities and these fractions, all else zero.
fn row(area: u32, densities: [u16; 2], on_site: [u16; 2], off_site: [u16; 2]) -> Conversion {
    let mut record: Record = [0; 40];
    record[4..8].copy_from_slice(&area.to_le_bytes());
    let twos = [
        (8, densities[0]),
        (10, densities[1]),
        (12, on_site[0]),
        (14, on_site[1]),
        (18, off_site[0]),
        (20, off_site[1]),
    ];
    for (at, value) in twos {
        record[at..at + 2].copy_from_slice(&value.to_le_bytes());
    }
    Conversion::of(&record)
}

/// By hand: 200 x 900 = 180,000, of which 400 thousandths burn on site and 200 off site,
/// 900 thousandths of them oxidised, and 400 are left.
#[test]
fn the_worked_day() {
    let bytes = worked_day().to_bytes();
    let due = [
        64_800_000_000,
        7_200_000_000,
        32_400_000_000,
        3_600_000_000,
        72_000_000_000,
    ];
    assert_eq!(matter(check(&bytes).expect("good rows")), due);
    assert_eq!(due.iter().sum::<u64>(), 180_000 * 1_000_000);
}

/// With primes: 2 x (5 - 2) = 6, on site 7 by 11, off site 13 by 17.
#[test]
fn parts_by_hand() {
    let found = parts(row(2, [5, 2], [7, 11], [13, 17]));
    let due = [6 * 77, 6 * 7 * 989, 6 * 221, 6 * 13 * 983, 6 * 980 * 1_000];
    assert_eq!(found, due);
    assert_eq!(found.iter().sum::<u64>(), 6_000_000);
}

/// One part alone, and the most that there can be.
#[test]
fn each_part_alone() {
    let most = 10_000_000_000_000_000;
    for (nth, (on_site, off_site)) in [
        ([1_000, 1_000], [0, 5]),
        ([1_000, 0], [0, 1_000]),
        ([0, 0], [1_000, 1_000]),
        ([0, 1_000], [1_000, 0]),
        ([0, 1_000], [0, 1_000]),
    ]
    .into_iter()
    .enumerate()
    {
        let mut due = [0; NAMES.len()];
        due[nth] = most;
        assert_eq!(parts(row(1_000_000, [10_000, 0], on_site, off_site)), due);
        // Nothing cleared, by the area, by the difference, or by grass that is thinner.
        for (area, densities) in [(0, [9, 1]), (9, [4, 4]), (9, [4, 5]), (9, [0, 10_000])] {
            assert_eq!(parts(row(area, densities, on_site, off_site)), [0; 5]);
        }
    }
}

/// What decays changes nothing: it is left unburned.
#[test]
fn decay_is_unburned() {
    let mut rows = worked_day();
    let before = sheets(&rows.to_bytes()).expect("good rows").matter;
    for (at, value) in [(10, 1), (11, 3), (12, 2), (13, 0), (14, 9)] {
        rows.conversion[0][at] = value;
    }
    let after = sheets(&rows.to_bytes()).expect("good rows").matter;
    assert_eq!(after, before);
}

/// 32 of the largest rows: nothing overflows.
#[test]
fn the_largest_return() {
    let of = |fractions: [u32; 4]| {
        let [on_site, on, off_site, off] = fractions;
        let row = |id| {
            let mut row = [0; 15];
            row[..4].copy_from_slice(&[id, 1_000_000, 10_000, 0]);
            row[4..6].copy_from_slice(&[on_site, on]);
            row[7..9].copy_from_slice(&[off_site, off]);
            row
        };
        let mut rows = Rows {
            conversion: (0..32).map(row).collect(),
            parameters: vec![[0; 6]],
            ..Rows::default()
        };
        rows.cover_with_more(&mut Rng::new(231), 0);
        sheets(&rows.to_bytes()).expect("good rows").matter
    };
    let all = 320_000_000_000_000_000;
    assert_eq!(of([0; 4]), [0, 0, 0, 0, all]);
    assert_eq!(of([1_000, 1_000, 0, 0]), [all, 0, 0, 0, 0]);
    assert_eq!(of([0, 0, 1_000, 0]), [0, 0, 0, all, 0]);
    let fourth = all / 4;
    assert_eq!(
        of([500, 500, 500, 500]),
        [fourth, fourth, fourth, fourth, 0]
    );
}

/// "Together they equal a million times the sum of area times counted difference, for every
/// accepted return, and the same holds of each row's five parts", on a short run of the
/// comparison. The carbon of each share is its oxidised part by the carbon fraction.
#[test]
fn nothing_is_lost() {
    let [mut accepted, mut rows] = [0; 2];
    for index in 0..20_000 {
        let case = inputs::with_figures(index, &mut Rng::for_input(232, index as u64));
        let Ok(checked) = check(&case.bytes) else {
            continue;
        };
        let (mut all, mut onsite) = (0, 0);
        for row in checked.records(1).map(Conversion::of) {
            let period = row.year;
            let difference = i64::from(period.before) - i64::from(period.after);
            let cleared = u64::from(period.area) * difference.max(0) as u64;
            let parts = parts(row);
            assert_eq!(parts.iter().sum::<u64>(), 1_000_000 * cleared);
            onsite += u128::from(parts[0]) * u128::from(row.on_site.carbon);
            all += 1_000_000 * cleared;
            rows += 1;
        }
        let figures = sheets(&case.bytes).expect("it is accepted");
        assert_eq!(figures.matter.iter().sum::<u64>(), all, "{}", case.how);
        assert_eq!(figures.onsite, onsite, "{}", case.how);
        accepted += 1;
    }
    assert!(accepted > 6_000 && rows > 50_000, "{accepted} {rows}");
}
