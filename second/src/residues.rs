//! Inputs by their crop residues (02, §14): accepted ones, of which one may be of several
//! sorts, and those with a crop above a limit.
//!
//! They are read off the rows once more, not asked of the judge or of the sheets.

use crate::burned::{all_largest, has_carbon, own_ratios};
use crate::coverage::{Counters, Coverage, Due, Sort, Sorts};
use crate::lists::{blocks_of, row_at, rows_in, Lists};
use crate::make::{fields, CropRow, CROPS, CROP_CARBON, MOST_BLOCKS, MOST_ROWS, SAVANNAS};

const KIND: u8 = CROPS.kind;

fn rows(lists: &Lists) -> &[CropRow] {
    rows_in(lists, KIND.into())
}

pub const SORTS: [Sort<Lists>; 12] = [
    ("no crops", |lists| rows(lists).is_empty()),
    ("1 to 12 crops", |lists| {
        (1..=12).contains(&rows(lists).len())
    }),
    ("13 to 24 crops", |lists| {
        (13..=24).contains(&rows(lists).len())
    }),
    ("25 to 32 crops", |lists| rows(lists).len() > 24),
    ("a crop without carbon", |lists| {
        has_carbon(lists, &CROPS, |carbon| carbon == 0)
    }),
    ("a crop within one word", |lists| {
        has_carbon(lists, &CROPS, |carbon| (1..=WORD).contains(&carbon))
    }),
    ("a crop beyond one word", |lists| {
        has_carbon(lists, &CROPS, |carbon| carbon > WORD)
    }),
    // One that is no good fraction in thousandths.
    ("a crop with a carbon fraction above 1,000", |lists| {
        rows(lists).iter().any(|row| row[CROP_CARBON] > 1_000)
    }),
    ("a largest crop", |lists| {
        has_carbon(lists, &CROPS, |carbon| carbon == CROPS.largest)
    }),
    ("32 largest crops", |lists| all_largest(lists, &CROPS)),
    ("crops with ratios of their own", |lists| {
        own_ratios(lists, &CROPS)
    }),
    ("crops and savannas, both with carbon", |lists| {
        has_carbon(lists, &CROPS, |carbon| carbon > 0)
            && has_carbon(lists, &SAVANNAS, |carbon| carbon > 0)
    }),
];

/// The most that one word holds.
const WORD: u128 = u64::MAX as u128;

/// What has to come by the thousand, and what is rarer.
const OFTEN: [Sort<Lists>; 1] = [("accepted, with crops", |lists| !rows(lists).is_empty())];
const FULL: [Sort<Lists>; 2] = [
    ("accepted, 32 crops", |lists| rows(lists).len() == MOST_ROWS),
    ("accepted, the most blocks", |lists| {
        let blocks = (1..).zip(lists).map(|(kind, _)| blocks_of(lists, kind));
        blocks.sum::<usize>() == MOST_BLOCKS
    }),
];

pub struct Residues {
    often: Sorts<Lists>,
    full: Sorts<Lists>,
    /// For each field of a crop, a row that is refused with it above its limit.
    limits: Counters,
}

impl Residues {
    /// So many are due with crops, with all there may be, and above each limit.
    pub fn new([often, full, crossed]: [Due; 3], coverage: &mut Coverage) -> Self {
        let limits = fields(KIND).iter().skip(1);
        let limits = limits.map(|field| format!("6, {} of a crop above its limit", field.name));
        Residues {
            often: Sorts::new(&OFTEN, often, coverage),
            full: Sorts::new(&FULL, full, coverage),
            limits: coverage.add(crossed, limits),
        }
    }

    /// Counts an input that is accepted, or refused by number 6.
    pub fn note(&self, answer: u32, lists: impl FnOnce() -> Lists, coverage: &mut Coverage) {
        match answer / 1000 {
            0 => {
                let lists = lists();
                self.often.note(&lists, coverage);
                self.full.note(&lists, coverage);
            }
            6 => {
                let lists = lists();
                let row = row_at(&lists, KIND, (answer % 1000) as usize);
                let fields = row.into_iter().flatten().zip(fields(KIND)).skip(1);
                for (nth, (&value, field)) in fields.enumerate() {
                    if value > field.most {
                        coverage.count(self.limits, nth);
                    }
                }
            }
            _ => {}
        }
    }
}

#[cfg(test)]
#[path = "residues_tests.rs"]
mod tests;
