//! Returns made for the sake of their soils' yearly change: on a half and beside it, on
//! both sides of zero, and at the limits.

use super::more_steps;
use crate::make::{good_ids, soil_carbon, Rows, SoilRow, MOST_AREA, MOST_ROWS, WITH_IDS};
use crate::make::{SOIL_AREAS, SOIL_CARBON, SOIL_TYPE};
use crate::rng::Rng;

/// What the gain is divided by.
const BELOW: i128 = 200_000;
/// Rows that bring what is missing: two for single units, two for whole tonnes.
const SPARE: usize = 4;
/// Native carbon and factors that come to one, and to [`BELOW`].
const ONE: [u32; 4] = [1, 1, 1, 1];
const TONNES: [[u32; 4]; 3] = [[20, 100, 100, 1], [8, 250, 1, 100], [200, 1, 10, 100]];
const LARGEST: [u32; 4] = [10_000, 300, 300, 300];

/// Stocks now less those of twenty years ago.
fn gain(rows: &[SoilRow]) -> i128 {
    let of_row = |row: &SoilRow| {
        let [now, then] = SOIL_AREAS.map(|at| i128::from(row[at]));
        soil_carbon(row) * (now - then)
    };
    rows.iter().map(of_row).sum()
}

/// The yearly change on a half or one or two steps beside it. The spare rows stand
/// anywhere among the others, and may be of their type.
pub(super) fn near_half(rng: &mut Rng) -> Rows {
    let mut counts = WITH_IDS.map(|_| rng.below(3));
    counts[5] = rng.pick(&[0, 0, 1, 8, 9, MOST_ROWS - SPARE]);
    let mut rows = Rows::good_in_later(rng, counts);
    if rng.one_in(3) {
        // All that is gained or lost is the spare rows'.
        let none = rng.pick(&SOIL_CARBON);
        rows.soil.iter_mut().for_each(|row| row[none] = 0);
    }
    let due = super::near_half(rng, BELOW as u128) as i128;
    let missing = (due - gain(&rows.soil)).rem_euclid(BELOW);
    // At most a whole area, up or down.
    let down = missing > BELOW / 2 || (missing == BELOW / 2 && rng.one_in(2));
    let missing = if down { missing - BELOW } else { missing };
    let tonnes = i128::from(more_steps(rng)) * rng.pick(&[1, -1]);
    let by = rng.pick(&TONNES);
    let spare = [bring(rng, ONE, missing), bring(rng, by, tonnes)];

    let of_another = rows.soil.first().map_or(3, |row| row[SOIL_TYPE]);
    let own = rng.pick(&[0, 65_535, of_another, of_another]);
    let at = rng.below(rows.soil.len() + 1);
    rows.soil.splice(at..at, spare.into_iter().flatten());
    for row in &mut rows.soil[at..at + SPARE] {
        row[SOIL_TYPE] = own;
    }
    let ids = good_ids(rng, rows.soil.len());
    rows.soil
        .iter_mut()
        .zip(ids)
        .for_each(|(row, id)| row[0] = id);
    rows
}

/// Two rows of a type that are even together: a soil of this carbon gains or loses so
/// much area, and one without carbon has it for that.
fn bring(rng: &mut Rng, carbon: [u32; 4], area: i128) -> [SoilRow; 2] {
    let by = area.unsigned_abs() as u32;
    let [mut with, mut without] = [0; 2].map(|_| {
        let less = rng.from_to(0, MOST_AREA - by);
        let mut row = [0, rng.from_to(0, 65_535), 0, less + by, less, 0, 0, 0, 0];
        SOIL_CARBON
            .iter()
            .for_each(|&at| row[at] = rng.from_to(0, 300));
        row
    });
    with[SOIL_CARBON[0]..].copy_from_slice(&carbon);
    without[rng.pick(&SOIL_CARBON)] = 0;
    let [now, then] = SOIL_AREAS;
    if area < 0 {
        with.swap(now, then);
    } else {
        without.swap(now, then);
    }
    rng.pick(&[[with, without], [without, with]])
}

/// As much gained as there can be, or lost: half of the soils have all their area now, and
/// the others all of it twenty years ago. In half of the returns a little less carbon.
pub(super) fn enlarge(rng: &mut Rng, rows: &mut Rows) {
    let [lost, less] = [rng.one_in(2), rng.one_in(2)];
    let own = rng.pick(&[0, 9, 65_535]);
    let count = rows.soil.len();
    for (nth, row) in rows.soil.iter_mut().enumerate() {
        let first = nth < count / 2;
        let [now, then] = match first {
            _ if nth == 2 * (count / 2) => [MOST_AREA; 2],
            true => [MOST_AREA, 0],
            false => [0, MOST_AREA],
        };
        row[SOIL_TYPE] = own;
        row[3..5].copy_from_slice(&if lost { [then, now] } else { [now, then] });
        row[5..].copy_from_slice(&LARGEST);
        if first && less {
            row[rng.pick(&SOIL_CARBON)] -= rng.from_to(0, 3);
        } else if !first {
            row[rng.pick(&SOIL_CARBON)] = 0;
        }
    }
}

#[cfg(test)]
#[path = "soil_tests.rs"]
mod tests;
