use super::*;
use crate::judge::judge;
use crate::make::worked_day;

#[test]
fn sums_by_hand() {
    assert_eq!(worked_day().used_and_cleared(), [77_500_000, 36_000_000]);
    assert_eq!(Rows::default().used_and_cleared(), [0, 0]);
    let top = [u32::MAX; 15];
    assert_eq!(used_and_cleared(&[top; 2], &[]), [0, 0]);
}

/// A row adds to K just what it is to add, within its limits.
#[test]
fn rows_are_taken_exactly() {
    let mut rng = Rng::new(9);
    let mut amounts = vec![0, 1, 999, 1_000, 1_001, 9_998_999, 9_999_999, 10_000_000];
    amounts.extend([MOST_THOUSANDS - 1, MOST_THOUSANDS, MOST_THOUSANDS + 1]);
    amounts.extend([MOST_TAKEN - 1, MOST_TAKEN]);
    amounts.extend((0..5_000).map(|_| between(&mut rng, 0, MOST_TAKEN)));
    for k in amounts {
        let [f, g, i, j] = taken(&mut rng, k);
        assert!(f <= 10_000_000 && g <= 10_000 && i <= 10_000_000 && j <= 10_000_000);
        let used = used_and_cleared(&[], &[[0, f, g, i, j]])[0];
        assert_eq!(used, 100 * u128::from(k), "{f} {g} {i} {j}");
    }
}

/// Rows that clear as much as there can be, with so many harvest rows.
fn largest(conversion: u32, harvest: u32) -> Rows {
    let row = |id| {
        [
            id, 1_000_000, 10_000, 0, 0, 0, 0, 1_000, 1, 1, 0, 0, 0, 0, 0,
        ]
    };
    Rows {
        conversion: (0..conversion).map(row).collect(),
        harvest: (0..harvest)
            .map(|id| [u32::MAX - 31 + id, 0, 0, 0, 0])
            .collect(),
        parameters: vec![[0; 6]],
        ..Rows::default()
    }
}

#[test]
fn covered_rows_are_accepted() {
    let mut rng = Rng::new(10);
    for conversion in [0, 1, 2, 31, 32] {
        for harvest in [0, 1, 2, 30, 32] {
            let mut rows = largest(conversion, harvest);
            rows.cover(&mut rng);
            assert_eq!(judge(&rows.to_bytes()).answer(), 0);
            assert_eq!(rows.conversion.len(), conversion as usize);
            assert_eq!(rows.harvest.len(), harvest as usize);
            // The other way leaves the conversion rows, and uses just enough.
            let mut rows = largest(conversion, harvest);
            let before = rows.conversion.clone();
            rows.cover_with_more(&mut rng, 0);
            assert_eq!(judge(&rows.to_bytes()).answer(), 0);
            assert_eq!(rows.conversion, before);
            let [used, cleared] = rows.used_and_cleared();
            assert_eq!(used, cleared);
            rows.cover_with_more(&mut rng, 7);
            assert_eq!(rows.used_and_cleared(), [used + 100, cleared]);
        }
    }
}

/// Whatever the rows were, and with one of each kind too.
#[test]
fn balances_are_exact() {
    let mut rng = Rng::new(12);
    for more in [-1_000_000, -101, -100, -1, 0, 1, 99, 100, 101, 900_000] {
        for (conversion, harvest) in [(1, 1), (32, 1), (1, 32), (32, 32)] {
            let mut rows = largest(conversion, harvest);
            rows.balance(&mut rng, more);
            let [used, cleared] = rows.used_and_cleared().map(|sum| sum as i64);
            assert_eq!(cleared - used, more);
            let due = if more > 0 { 12_000 } else { 0 };
            assert_eq!(judge(&rows.to_bytes()).answer(), due);
        }
    }
}

/// Every row has its share often enough for a reader who leaves one out to be seen.
#[test]
fn every_row_is_used() {
    let mut rng = Rng::new(13);
    let mut used = [0; MOST_ROWS];
    for _ in 0..1_000 {
        let mut rows = largest(3, MOST_ROWS as u32);
        rows.balance(&mut rng, 0);
        for (row, used) in rows.harvest.iter().zip(&mut used) {
            *used += u32::from(used_and_cleared(&[], &[*row])[0] > 0);
        }
    }
    assert!(used.iter().all(|&times| times > 100), "{used:?}");
}
