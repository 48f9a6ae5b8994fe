//! Accepted inputs by their soils (02, §11). One may be of several sorts.
//!
//! They are read off the rows once more, not asked of the judge or of the sheets.

use crate::coverage::Sort;
use crate::lists::{rows_in, Lists};
use crate::make::{area_sums, land_sums, soil_carbon, SoilRow};
use crate::make::{MOST_AREA, SOIL_AREAS, SOIL_TYPE};

fn rows(lists: &Lists) -> &[SoilRow] {
    rows_in(lists, 7)
}

pub const SORTS: [Sort<Lists>; 17] = [
    ("no soils", |lists| rows(lists).is_empty()),
    ("1 to 12 soils", |lists| {
        (1..=12).contains(&rows(lists).len())
    }),
    ("13 to 24 soils", |lists| {
        (13..=24).contains(&rows(lists).len())
    }),
    ("25 to 32 soils", |lists| rows(lists).len() > 24),
    ("several soils of one type", |lists| {
        rows(lists).len() > 1 && types(lists) == 1
    }),
    ("soils of 2 to 4 types", |lists| {
        (2..=4).contains(&types(lists))
    }),
    ("soils of 5 types and more", |lists| types(lists) > 4),
    ("5 soils and more, all of different types", |lists| {
        types(lists) > 4 && types(lists) == rows(lists).len()
    }),
    ("soils of the types 0 and 65,535", |lists| {
        let types = area_sums(rows(lists));
        types.contains_key(&0) && types.contains_key(&65_535)
    }),
    ("soils that gain", |lists| gain(lists) > 0),
    ("soils that lose", |lists| gain(lists) < 0),
    ("areas that change, and no gain", |lists| {
        gain(lists) == 0 && rows(lists).iter().any(|row| !is_even(row))
    }),
    ("a largest stock", |lists| {
        let largest = |row: &SoilRow| {
            SOIL_AREAS.iter().any(|&at| row[at] == MOST_AREA) && soil_carbon(row) == MOST_CARBON
        };
        rows(lists).iter().any(largest)
    }),
    ("several soils, each even by itself", |lists| {
        rows(lists).len() > 1 && rows(lists).iter().all(is_even)
    }),
    ("several soils, none even by itself", |lists| {
        rows(lists).len() > 1 && !rows(lists).iter().any(is_even)
    }),
    ("12 soils of a type, even only behind the last", |lists| {
        area_sums(rows(lists)).keys().any(|&own| late(lists, own))
    }),
    ("soils uneven by land system", |lists| {
        let mut sums = land_sums(rows(lists)).into_values();
        sums.any(|[now, then]| now != then)
    }),
];

/// The most carbon that a soil can have.
const MOST_CARBON: i128 = 270_000_000_000;

fn types(lists: &Lists) -> usize {
    area_sums(rows(lists)).len()
}

fn is_even(row: &SoilRow) -> bool {
    let [now, then] = SOIL_AREAS.map(|at| row[at]);
    now == then
}

/// Stocks now less those of twenty years ago.
fn gain(lists: &Lists) -> i128 {
    let stock = |row: &SoilRow, area: usize| soil_carbon(row) * i128::from(row[area]);
    let [now, then] = SOIL_AREAS;
    let of_row = |row: &SoilRow| stock(row, now) - stock(row, then);
    rows(lists).iter().map(of_row).sum()
}

/// Whether a type has twelve rows and more, and both its sums are the same behind the
/// last of them and never before.
fn late(lists: &Lists, own: u32) -> bool {
    let same = rows(lists).iter().filter(|row| row[SOIL_TYPE] == own);
    let mut off = 0i64;
    let running: Vec<i64> = same
        .map(|row| {
            off += i64::from(row[SOIL_AREAS[0]]) - i64::from(row[SOIL_AREAS[1]]);
            off
        })
        .collect();
    running.len() >= 12 && running.iter().position(|&off| off == 0) == Some(running.len() - 1)
}

#[cfg(test)]
#[path = "tilled_tests.rs"]
mod tests;
