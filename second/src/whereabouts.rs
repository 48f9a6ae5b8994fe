//! Where every tonne went (02, §13), held against the rows: the identity of the five totals,
//! and accepted inputs by their dry matter.
//!
//! They are read off the rows once more, not asked of the sheets.

use crate::coverage::Sort;
use crate::lists::{rows_in, Lists};
use crate::make::{AFTER, BEFORE, SUMMED};
use crate::matter::{Matter, NAMES};

/// A conversion row's numbers.
type Row = [u32; 15];

fn rows(lists: &Lists) -> &[Row] {
    rows_in(lists, 1)
}

/// "a million times the sum of area times counted difference"
pub fn cleared(lists: &Lists) -> u128 {
    1_000_000 * rows(lists).iter().map(cleared_of).sum::<u128>()
}

fn cleared_of(row: &Row) -> u128 {
    u128::from(row[1]) * u128::from(row[BEFORE[0]].saturating_sub(row[AFTER[0]]))
}

/// Where the five lines of a text don't come to this, or aren't there, each once and one
/// behind the other.
pub fn missing_in(text: &str, due: u128) -> Option<String> {
    let first = text.lines().position(|line| line.starts_with(NAMES[0]));
    let lines: Vec<&str> = text.lines().skip(first.unwrap_or(0)).collect();
    let value = |(name, line): (&&str, &&str)| line.strip_prefix(*name)?.parse::<u128>().ok();
    let found: Option<Vec<u128>> = match lines.len() >= NAMES.len() {
        true => NAMES.iter().zip(&lines).map(value).collect(),
        false => None,
    };
    match found {
        None => Some(format!("not all of {NAMES:?} are there:\n{text}")),
        Some(found) => missing(found.into_iter(), due),
    }
}

/// The same of numbers.
pub fn missing(found: impl Iterator<Item = u128>, due: u128) -> Option<String> {
    let sum: u128 = found.sum();
    (sum != due).then(|| format!("the dry matter comes to {sum}, and {due} is cleared"))
}

pub const SORTS: [Sort<Lists>; 12] = [
    ("no dry matter", |lists| cleared(lists) == 0),
    ("dry matter oxidised on site alone", |lists| alone(lists, 0)),
    ("dry matter charcoal on site alone", |lists| alone(lists, 1)),
    ("dry matter oxidised off site alone", |lists| {
        alone(lists, 2)
    }),
    ("dry matter charcoal off site alone", |lists| {
        alone(lists, 3)
    }),
    ("dry matter unburned alone", |lists| alone(lists, 4)),
    ("dry matter of all five", |lists| {
        (0..NAMES.len()).all(|nth| has(lists, nth))
    }),
    ("a row with dry matter of all five", |lists| {
        any(lists, |row| parts(row).iter().all(|&part| part > 0))
    }),
    ("a row all burned, on site and off site", |lists| {
        any(lists, |row| {
            cleared_of(row) > 0 && SUMMED[..2].iter().all(|&at| row[at] > 0) && parts(row)[4] == 0
        })
    }),
    ("a thinner row that would burn", |lists| {
        any(lists, |row| {
            row[1] > 0 && row[AFTER[0]] > row[BEFORE[0]] && row[SUMMED[0]] + row[SUMMED[1]] > 0
        })
    }),
    (
        "a row with dry matter unburned and a part that decays",
        |lists| any(lists, |row| parts(row)[4] > 0 && row[SUMMED[2]] > 0),
    ),
    ("a row with as much dry matter as there can be", |lists| {
        any(lists, |row| cleared_of(row) == 10_000_000_000)
    }),
];

fn any(lists: &Lists, holds: impl Fn(&Row) -> bool) -> bool {
    rows(lists).iter().any(holds)
}

/// Whether a row has something of the `nth`.
fn has(lists: &Lists, nth: usize) -> bool {
    any(lists, |row| parts(row)[nth] > 0)
}

/// Whether all dry matter, of several rows, is of one sort.
fn alone(lists: &Lists, nth: usize) -> bool {
    let others = (0..NAMES.len()).filter(|&other| other != nth);
    rows(lists).len() > 1 && has(lists, nth) && !others.into_iter().any(|other| has(lists, other))
}

/// A row's five parts.
fn parts(row: &Row) -> Matter<u128> {
    let burned = |share: usize| {
        let [fraction, oxidised] = [row[SUMMED[share]], row[SUMMED[share] + 1]];
        [oxidised, 1_000 - oxidised].map(|part| u128::from(fraction) * u128::from(part))
    };
    let [[a, b], [c, d]] = [burned(0), burned(1)];
    let left = 1_000 - row[SUMMED[0]] - row[SUMMED[1]];
    [a, b, c, d, 1_000 * u128::from(left)].map(|part| part * cleared_of(row))
}

#[cfg(test)]
mod tests {
    use super::*;
    use crate::make::{worked_day, Rows};
    use crate::sorts::sorts_of;

    #[test]
    fn the_worked_day() {
        let day = worked_day().lists();
        assert_eq!(cleared(&day), 180_000_000_000);
        let text = "co2 1\noxidised_onsite 64800000000\ncharcoal_onsite 7200000000\n\
            oxidised_offsite 32400000000\ncharcoal_offsite 3600000000\nunburned 72000000000\n";
        assert_eq!(missing_in(text, cleared(&day)), None);
        assert!(missing_in(text, cleared(&day) + 1).is_some());
        for (old, new) in [
            ("unburned 7", "unburned 8"),
            ("unburned ", "unburned"),
            ("oxidised_onsite", "oxidised_on_site"),
            ("charcoal_onsite 7200000000\n", ""),
            ("charcoal_offsite", "charcoal_onsite"),
        ] {
            let wrong = text.replace(old, new);
            assert!(missing_in(&wrong, cleared(&day)).is_some(), "{wrong}");
        }
        let more = [64_800, 7_200, 32_400, 3_600, 72_000].map(|part| part * 1_000_000);
        assert_eq!(missing(more.into_iter(), cleared(&day)), None);
        assert!(missing(more.into_iter().skip(1), cleared(&day)).is_some());
        assert!(missing_in("", 0).is_some());
    }

    /// Two rows of one area, with on-site and off-site fractions and what is oxidised of
    /// them, and the decay fraction.
    fn sorts(rows: [[u32; 5]; 2]) -> Vec<&'static str> {
        let row = |(id, [on, on_oxidised, off, off_oxidised, decay]): (u32, [u32; 5])| {
            let mut row = [0; 15];
            row[..4].copy_from_slice(&[id, 3, 9, 8]);
            row[4..6].copy_from_slice(&[on, on_oxidised]);
            row[7..9].copy_from_slice(&[off, off_oxidised]);
            row[13] = decay;
            row
        };
        sorts_of(
            &SORTS,
            &Rows {
                conversion: (0..).zip(rows).map(row).collect(),
                parameters: vec![[0; 6]],
                ..Rows::default()
            },
        )
    }

    #[test]
    fn sorts_by_hand() {
        for (nth, row) in [
            [1_000, 1_000, 0, 0, 0],
            [1_000, 0, 0, 7, 0],
            [0, 8, 1_000, 1_000, 0],
            [0, 9, 1_000, 0, 0],
        ]
        .into_iter()
        .enumerate()
        {
            assert_eq!(sorts([row; 2]), [SORTS[1 + nth].0]);
        }
        assert_eq!(sorts([[0, 1, 0, 1, 0]; 2]), [SORTS[5].0]);
        assert_eq!(sorts([[0, 1, 0, 1, 5]; 2]), [SORTS[5].0, SORTS[10].0]);
        let all = [1, 1, 1, 1, 0];
        assert_eq!(sorts([all, [0; 5]]), [SORTS[6].0, SORTS[7].0]);
        let [one, other] = [[500, 1_000, 500, 0, 0], [1, 0, 1, 1_000, 0]];
        assert_eq!(sorts([one, other]), [SORTS[6].0, SORTS[8].0]);
    }

    #[test]
    fn sorts_without_dry_matter() {
        let mut rows = worked_day();
        let of = |rows: &Rows| sorts_of(&SORTS, rows);
        rows.conversion[0][2..4].copy_from_slice(&[7, 7]);
        assert_eq!(of(&rows), [SORTS[0].0]);
        rows.conversion[0][2..4].copy_from_slice(&[7, 8]);
        assert_eq!(of(&rows), [SORTS[0].0, SORTS[9].0]);
        rows.conversion[0][1] = 0;
        assert_eq!(of(&rows), [SORTS[0].0]);
        rows.conversion[0][1..5].copy_from_slice(&[1_000_000, 10_000, 0, 0]);
        rows.conversion[0][7] = 0;
        assert_eq!(of(&rows), [SORTS[10].0, SORTS[11].0]);
    }
}
