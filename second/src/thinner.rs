//! Accepted inputs by their rows with more biomass after than before (02, §3). Each is of one sort.
//!
//! They are read off the rows once more, not asked of the sheets.

use crate::coverage::Sort;
use crate::lists::{rows_in, Lists};
use crate::make::{AFTER, BEFORE};

pub const SORTS: [Sort<Lists>; 5] = [
    ("no thinner row", |lists| {
        thinner(lists) == [false, false, false]
    }),
    ("thinner in the first period alone", |lists| {
        thinner(lists) == [true, false, false]
    }),
    ("thinner in the second period alone", |lists| {
        thinner(lists) == [false, true, false]
    }),
    ("thinner in both, of different rows", |lists| {
        thinner(lists) == [true, true, false]
    }),
    ("thinner in both of a row", |lists| {
        thinner(lists) == [true, true, true]
    }),
];

/// Whether a row is thinner in the first period, one in the second, and one in both.
fn thinner(lists: &Lists) -> [bool; 3] {
    let [mut first, mut second, mut both] = [false; 3];
    for row in rows_in::<15>(lists, 1) {
        let [year, ten_years] = [0, 1].map(|period| row[AFTER[period]] > row[BEFORE[period]]);
        first |= year;
        second |= ten_years;
        both |= year && ten_years;
    }
    [first, second, both]
}

#[cfg(test)]
mod tests {
    use super::*;
    use crate::make::Rows;
    use crate::sorts::sorts_of;

    /// Density before and after.
    type Period = [u32; 2];

    /// One row for each pair of densities, in both periods.
    fn rows(densities: &[[Period; 2]]) -> Rows {
        let row = |(id, [year, ten_years]): (u32, &[Period; 2])| {
            let mut row = [0; 15];
            row[0] = id;
            row[2..4].copy_from_slice(year);
            row[11..13].copy_from_slice(ten_years);
            row
        };
        Rows {
            conversion: (0..).zip(densities).map(row).collect(),
            parameters: vec![[0; 6]],
            ..Rows::default()
        }
    }

    #[test]
    fn sorts_by_hand() {
        let [more, same, less] = [[99, 100], [100, 100], [101, 100]];
        let many: Vec<[Period; 2]> = (0..31).map(|_| [less, same]).collect();
        for (one, two, sort) in [
            ([less, same], [same, less], 0),
            ([more, same], [same, less], 1),
            ([less, more], [same, more], 2),
            ([more, same], [less, more], 3),
            ([less, same], [more, more], 4),
        ] {
            // In the first block, and in the last record of the third.
            let mut last = many.clone();
            last.insert(0, one);
            last[31] = two;
            for rows in [rows(&[one, two]), rows(&last)] {
                assert_eq!(sorts_of(&SORTS, &rows), [SORTS[sort].0]);
            }
        }
        assert_eq!(sorts_of(&SORTS, &rows(&[])), [SORTS[0].0]);
    }
}
