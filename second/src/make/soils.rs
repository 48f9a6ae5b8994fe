//! Random good soil rows: types of their own or together, whose areas now and twenty
//! years ago come to the same (02, §11), and rows that miss it.

use super::draw::good_value;
use super::{Rows, LAND_SYSTEM, SOIL_AREAS, SOIL_CARBON, SOIL_TYPE};
use crate::rng::Rng;
use std::collections::BTreeMap;

/// A soil row's numbers.
pub type SoilRow = [u32; 9];

pub const MOST_AREA: u32 = 100_000;
const MOST_TYPE: u32 = 65_535;
const MOST_CARBON: [u32; 4] = [10_000, 300, 300, 300];

/// Both area sums of each soil type.
pub fn area_sums(rows: &[SoilRow]) -> BTreeMap<u32, [u64; 2]> {
    sums_by(rows, SOIL_TYPE)
}

/// Both area sums of each land system, which nothing asks for.
pub fn land_sums(rows: &[SoilRow]) -> BTreeMap<u32, [u64; 2]> {
    sums_by(rows, LAND_SYSTEM)
}

fn sums_by(rows: &[SoilRow], field: usize) -> BTreeMap<u32, [u64; 2]> {
    let mut sums = BTreeMap::new();
    for row in rows {
        let sum: &mut [u64; 2] = sums.entry(row[field]).or_default();
        for (sum, at) in sum.iter_mut().zip(SOIL_AREAS) {
            *sum += u64::from(row[at]);
        }
    }
    sums
}

/// The lowest soil type whose two sums differ, and its first row.
pub fn uneven_type(rows: &[SoilRow]) -> Option<(u32, usize)> {
    let mut sums = area_sums(rows).into_iter();
    let (lowest, _) = sums.find(|(_, [now, then])| now != then)?;
    let first = rows.iter().position(|row| row[SOIL_TYPE] == lowest);
    Some((lowest, first.expect("a row of this type")))
}

/// A row's soil carbon.
pub fn soil_carbon(row: &SoilRow) -> i128 {
    SOIL_CARBON.iter().map(|&at| i128::from(row[at])).product()
}

/// Good rows become of some types, with carbon of a style, and come out even.
pub(super) fn style_soils(rng: &mut Rng, rows: &mut [SoilRow]) {
    draw_types(rng, rows);
    let style = rng.below(6);
    for row in rows.iter_mut() {
        match (style, rng.below(4)) {
            (0, _) | (4, 0) => fill(rng, row),
            (1, _) | (4, 1) => row[6..].fill(100),
            (2, _) | (4, 2) => row[5..].copy_from_slice(&MOST_CARBON),
            (3, _) => row[5..].fill_with(|| rng.pick(&[0, 1, 1, 1, 2])),
            _ => {}
        }
    }
    even_out(rng, rows, SOIL_AREAS[0]);
}

/// No factor is zero.
fn fill(rng: &mut Rng, row: &mut SoilRow) {
    for (at, most) in SOIL_CARBON.into_iter().zip(MOST_CARBON) {
        row[at] = rng.from_to(1, most);
    }
}

/// One type, few, both ends, some that look alike, all different, or any.
fn draw_types(rng: &mut Rng, rows: &mut [SoilRow]) {
    let one = good_value(rng, MOST_TYPE);
    let few: Vec<u32> = match rng.below(8) {
        0 | 1 => vec![one],
        2 | 3 => (0..2 + rng.below(3))
            .map(|_| good_value(rng, MOST_TYPE))
            .collect(),
        4 => vec![0, MOST_TYPE],
        // The same to a reader of one byte, or of the bytes in the other order.
        5 => [0, 1, 255, 256, 257, 512, 65_280].to_vec(),
        6 => return draw_different(rng, rows),
        _ => return,
    };
    for row in rows {
        row[SOIL_TYPE] = rng.pick(&few);
    }
}

/// Rising from row to row, falling, or in any order; now and then with both ends.
fn draw_different(rng: &mut Rng, rows: &mut [SoilRow]) {
    let step = rng.pick(&[1, 1, 256, 1_500]);
    let highest = MOST_TYPE - step * rows.len() as u32;
    let any = rng.from_to(0, highest);
    let first = rng.pick(&[0, highest + step, any]);
    let mut types: Vec<u32> = (0..rows.len() as u32)
        .map(|nth| first + step * nth)
        .collect();
    match rng.below(3) {
        0 => {}
        1 => types.reverse(),
        _ => shuffle(rng, &mut types),
    }
    for (row, own) in rows.iter_mut().zip(types) {
        row[SOIL_TYPE] = own;
    }
}

fn shuffle<T>(rng: &mut Rng, list: &mut [T]) {
    for last in (1..list.len()).rev() {
        list.swap(rng.below(last + 1), last);
    }
}

/// Brings both sums of each type together. One of the two areas is kept; the other's are
/// the same row by row, those of other rows, or shared out anew.
pub fn even_out(rng: &mut Rng, rows: &mut [SoilRow], kept: usize) {
    let [now, then] = SOIL_AREAS;
    let other = if kept == now { then } else { now };
    for own in area_sums(rows).into_keys() {
        let of_type = |row: &&mut SoilRow| row[SOIL_TYPE] == own;
        let mut same: Vec<&mut SoilRow> = rows.iter_mut().filter(of_type).collect();
        let areas: Vec<u32> = same.iter().map(|row| row[kept]).collect();
        let new = match rng.below(6) {
            0 => areas,
            1 | 2 => {
                let (mut turned, count) = (areas, same.len());
                let by = rng.below(count).max(1) % count;
                turned.rotate_left(by);
                turned
            }
            _ => shared_out(rng, &areas),
        };
        same.iter_mut()
            .zip(new)
            .for_each(|(row, area)| row[other] = area);
    }
}

/// As many areas with the same sum: as little or as much as can be, evenly, or any part.
fn shared_out(rng: &mut Rng, areas: &[u32]) -> Vec<u32> {
    let mut left: u32 = areas.iter().sum();
    let mut shared = Vec::with_capacity(areas.len());
    for nth in 0..areas.len() {
        let behind = (areas.len() - nth - 1) as u32;
        let least = left.saturating_sub(MOST_AREA * behind);
        let most = left.min(MOST_AREA);
        let [any, even] = [rng.from_to(least, most), left.div_ceil(behind + 1)];
        let part = rng.pick(&[least, most, any, any, even]);
        shared.push(part);
        left -= part;
    }
    shuffle(rng, &mut shared);
    shared
}

impl Rows {
    /// Brings both sums of each soil type together again; these areas are kept.
    pub fn even_soils(&mut self, rng: &mut Rng, kept: usize) {
        even_out(rng, &mut self.soil, kept);
    }
}

/// Adds to an area of a row, or takes from it where there is no room above.
pub fn move_area(row: &mut SoilRow, area: usize, by: u32) {
    let up = row[area] + by <= MOST_AREA;
    row[area] = if up { row[area] + by } else { row[area] - by };
}

/// Breaks number 13 and nothing else, in rows that are even and at least one. How.
pub fn unbalance(rng: &mut Rng, rows: &mut [SoilRow]) -> &'static str {
    let before = rows.to_vec();
    let how = match rng.below(8) {
        0 | 1 => by_one(rng, rows),
        2 => {
            let at = rng.below(rows.len());
            let area = rng.pick(&SOIL_AREAS);
            let by = rng.from_to(1, MOST_AREA / 2);
            move_area(&mut rows[at], area, by);
            "by any number"
        }
        3 => {
            for _ in 0..2 + rng.below(4) {
                by_one(rng, rows);
            }
            "by one, several times"
        }
        4 => between_types(rng, rows),
        5 => {
            let at = rng.below(rows.len());
            rows[at].swap(SOIL_AREAS[0], SOIL_AREAS[1]);
            "now and then swapped"
        }
        6 => {
            // Even by their land systems.
            rows.iter_mut()
                .for_each(|row| row[LAND_SYSTEM] = row[SOIL_TYPE]);
            let types: Vec<u32> = rows.iter().map(|row| row[SOIL_TYPE]).collect();
            let turn = rng.below(rows.len());
            for (nth, row) in rows.iter_mut().enumerate() {
                row[SOIL_TYPE] = types[(nth + turn) % types.len()];
            }
            "even by land systems"
        }
        _ => {
            let [at, other] = [0; 2].map(|_| rng.below(rows.len()));
            rows[at][SOIL_TYPE] = rows[other][SOIL_TYPE];
            "a row of another type"
        }
    };
    if uneven_type(rows).is_some() {
        return how;
    }
    rows.copy_from_slice(&before);
    by_one(rng, rows)
}

fn by_one(rng: &mut Rng, rows: &mut [SoilRow]) -> &'static str {
    let at = rng.below(rows.len());
    let area = rng.pick(&SOIL_AREAS);
    move_area(&mut rows[at], area, 1);
    "by one"
}

/// What one type has too much another has too little: the sums over all rows stay alike.
fn between_types(rng: &mut Rng, rows: &mut [SoilRow]) -> &'static str {
    let [from, to] = [0; 2].map(|_| rng.below(rows.len()));
    let area = rng.pick(&SOIL_AREAS);
    let most = rows[from][area].min(MOST_AREA - rows[to][area]);
    let by = rng.pick(&[most, most.min(1)]);
    rows[from][area] -= by;
    rows[to][area] += by;
    "from one type to another"
}

#[cfg(test)]
#[path = "soils_tests.rs"]
mod tests;
