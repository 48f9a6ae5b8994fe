//! Accepted inputs by their savannas (02, §5). One may be of several sorts.
//!
//! They are read off the rows once more, not asked of the sheets.

use crate::coverage::Sort;
use crate::lists::{rows_in, rows_of_kind, Lists};
use crate::make::{ratios, savanna_carbon, Burnt, LIVE, SAVANNAS};

/// A savanna row's numbers.
type Row = [u32; 14];

fn rows(lists: &Lists) -> &[Row] {
    rows_in(lists, 6)
}

pub const SORTS: [Sort<Lists>; 12] = [
    ("no savannas", |lists| rows(lists).is_empty()),
    ("1 to 12 savannas", |lists| {
        (1..=12).contains(&rows(lists).len())
    }),
    ("13 to 24 savannas", |lists| {
        (13..=24).contains(&rows(lists).len())
    }),
    ("25 to 32 savannas", |lists| rows(lists).len() > 24),
    ("a savanna without carbon", |lists| {
        has_carbon(lists, &SAVANNAS, |carbon| carbon == 0)
    }),
    ("a savanna all live", |lists| {
        any(lists, |[a, _], row| row[LIVE] == 1_000 && a > 0)
    }),
    ("a savanna all dead", |lists| {
        any(lists, |[_, b], row| row[LIVE] == 0 && b > 0)
    }),
    ("a savanna live and dead", |lists| {
        any(lists, |[a, b], _| a > 0 && b > 0)
    }),
    ("a savanna beyond one word", |lists| {
        has_carbon(lists, &SAVANNAS, |carbon| carbon > u64::MAX.into())
    }),
    ("a largest savanna", |lists| {
        has_carbon(lists, &SAVANNAS, |carbon| carbon == SAVANNAS.largest)
    }),
    ("32 largest savannas", |lists| all_largest(lists, &SAVANNAS)),
    ("savannas with ratios of their own", |lists| {
        own_ratios(lists, &SAVANNAS)
    }),
];

fn any(lists: &Lists, holds: fn([u128; 2], &Row) -> bool) -> bool {
    rows(lists)
        .iter()
        .any(|row| holds(savanna_carbon(row), row))
}

/// Whether a row of a kind that burns has such carbon.
pub(crate) fn has_carbon(lists: &Lists, of: &Burnt, holds: fn(u128) -> bool) -> bool {
    rows_of_kind(lists, of.kind).any(|row| holds((of.carbon)(row)))
}

/// Whether there are 32 rows of a kind, each with as much carbon as there can be.
pub(crate) fn all_largest(lists: &Lists, of: &Burnt) -> bool {
    let largest = rows_of_kind(lists, of.kind).filter(|row| (of.carbon)(row) == of.largest);
    largest.count() == 32
}

/// Two rows with carbon differ in each of the five, so that no row's can stand in
/// for another's.
pub(crate) fn own_ratios(lists: &Lists, of: &Burnt) -> bool {
    let with_carbon = |row: &&[u32]| (of.carbon)(row) > 0;
    let burned = rows_of_kind(lists, of.kind).filter(with_carbon);
    let burned: Vec<&[u32]> = burned.map(ratios).collect();
    let differs = |nth: usize| burned.iter().any(|ratios| ratios[nth] != burned[0][nth]);
    (0..5).all(differs)
}

#[cfg(test)]
#[path = "burned_tests.rs"]
mod tests;
