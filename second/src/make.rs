//! A maker of returns: from rows to bytes, and random good rows.
//!
//! All that is common to the kinds comes from the table of kinds. The judge doesn't use
//! that table: its reading code is written from the paper on its own, so that the two
//! check each other.

mod burnt;
mod bytes;
mod crops;
mod draw;
mod good;
mod harvest;
mod savannas;
mod soils;
mod trees;

pub use burnt::{ratios, ratios_mut, Burnt};
pub use bytes::{renumber, repair_check, repair_checks, seal};
pub use crops::{CropRow, CROPS, CROP_CARBON};
pub use draw::good_ids;
pub use good::{drawn_counts, later, thin};
pub use harvest::used_and_cleared;
pub use savannas::{savanna_carbon, SAVANNAS};
pub use soils::{area_sums, land_sums, move_area, soil_carbon, unbalance, uneven_type};
pub use soils::{SoilRow, MOST_AREA};

use crate::kinds::{full_blocks, Field, Kind, EDITIONS, KINDS};
use std::ops::Range;

pub const BLOCK: usize = 512;
pub const CHECK_AT: usize = 508;
pub const MOST_ROWS: usize = 32;
/// Of a return, in any edition.
pub const MOST_BLOCKS: usize = full_blocks(*EDITIONS.end());
/// All that edition 1 has rows for.
pub const FIRST_FULL: usize = full_blocks(1);
/// The kinds whose rows have ids, in order: all but the parameters.
pub const WITH_IDS: [u8; KINDS.len() - 1] = {
    let (mut kinds, mut nth, mut kind) = ([0; KINDS.len() - 1], 0, 0);
    while kind < KINDS.len() {
        if KINDS[kind].has_id {
            kinds[nth] = kind as u8 + 1;
            nth += 1;
        }
        kind += 1;
    }
    kinds
};
/// How many of them edition 1 has; the others are those of the later editions.
pub const FIRST_WITH_IDS: usize = 3;
/// How many are the later editions' alone.
pub const LATER: usize = WITH_IDS.len() - FIRST_WITH_IDS;
/// Numbers of rows of the kinds with ids.
pub type RowCounts = [usize; WITH_IDS.len()];

/// All editions, and those that have the kinds above 4.
pub const ALL_EDITIONS: [u16; 3] = [1, 2, 3];
pub const LATER_EDITIONS: [u16; 2] = [2, 3];
/// The one that has no scattered trees.
pub const WITHOUT_TREES: u16 = 3;

/// Positions in a conversion row.
pub const BEFORE: [usize; 2] = [2, 11];
pub const AFTER: [usize; 2] = [3, 12];
/// On-site, off-site and decay: together at most 1,000.
pub const SUMMED: [usize; 3] = [4, 7, 13];

/// The position of the unit code in a stock row, and what it is for scattered trees.
pub const UNIT_CODE: usize = 1;
pub const TREES: u32 = 1;

/// Positions in a savanna row: the live fraction, oxidised and carbon fraction of
/// the live part, and the same two of the dead.
pub const LIVE: usize = 4;
pub const LIVE_BURNT: [usize; 2] = [5, 6];
pub const DEAD_BURNT: [usize; 2] = [7, 8];

/// Positions in a soil row: the land system, the soil type, the areas now and twenty years
/// ago, and what soil carbon is the product of.
pub const LAND_SYSTEM: usize = 1;
pub const SOIL_TYPE: usize = 2;
pub const SOIL_AREAS: [usize; 2] = [3, 4];
pub const SOIL_CARBON: [usize; 4] = [5, 6, 7, 8];

/// The last kind that an edition has.
pub fn last_kind(edition: u16) -> u8 {
    let has = |kind: &&Kind| kind.since <= edition.into();
    KINDS.iter().filter(has).count() as u8
}

/// The fields of a kind, in row order.
pub fn fields(kind: u8) -> &'static [Field] {
    KINDS[usize::from(kind) - 1].fields
}

/// How many fields of all kinds have a limit, every one but the ids, and how many of those
/// that edition 1 has.
pub const LIMITED: usize = limited_in(*EDITIONS.end());
pub const FIRST_LIMITED: usize = limited_in(1);

const fn limited_in(edition: u32) -> usize {
    let (mut limited, mut kind) = (0, 0);
    while kind < KINDS.len() {
        if KINDS[kind].since <= edition {
            limited += KINDS[kind].numbers - KINDS[kind].has_id as usize;
        }
        kind += 1;
    }
    limited
}

/// The kind of the `nth` field with a limit, and its position in the row.
pub fn limited(nth: usize) -> (u8, usize) {
    let of_kind = |(number, kind): (u8, &'static Kind)| {
        let positions = usize::from(kind.has_id)..kind.numbers;
        positions.map(move |position| (number, position))
    };
    let mut all = (1..).zip(&KINDS).flat_map(of_kind);
    all.nth(nth).expect("so many fields have a limit")
}

/// The blocks of all rows that an edition has, by their kinds.
pub fn full_kinds(edition: u16) -> Vec<u8> {
    let of_kind = |kind: u8| vec![kind; if kind == 4 { 1 } else { 3 }];
    (1..=last_kind(edition)).flat_map(of_kind).collect()
}

/// Where zero is due in a block of this kind and count, in order: each area of
/// the used records, each unused record, and the twenty bytes at 488.
pub fn zero_areas(kind: u8, count: usize) -> Vec<Range<usize>> {
    let mut areas = Vec::new();
    for record in (0..count).map(|record| 8 + 40 * record) {
        let starts = fields(kind).iter().map(|field| field.at).chain([40]);
        let ends = [0].into_iter().chain(fields(kind).iter().map(Field::end));
        let gaps = ends.zip(starts).filter(|(end, start)| end < start);
        areas.extend(gaps.map(|(end, start)| record + end..record + start));
    }
    areas.extend((count..12).map(|record| 8 + 40 * record..48 + 40 * record));
    areas.push(488..CHECK_AT);
    areas
}

/// The place of a kind with ids among [`WITH_IDS`]; the parameters have none.
pub fn place_of(kind: u8) -> Option<usize> {
    WITH_IDS.iter().position(|&other| other == kind)
}

/// The rows of a return, a list for each kind: its name in the paper's words and the numbers of a row.
macro_rules! rows {
    ($($kind:ident: $numbers:literal,)*) => {
        /// A good return has at most 32 rows of each kind with ids, of the kinds above 4
        /// only in a later edition, and exactly one of parameters; more or fewer are
        /// written just the same.
        #[derive(Clone, Debug)]
        pub struct Rows {
            pub edition: u16,
            $(pub $kind: Vec<[u32; $numbers]>,)*
        }

        impl Rows {
            /// Rows of zeros, so many of each kind.
            fn zeros(edition: u16, [$($kind),*]: [usize; KINDS.len()]) -> Self {
                Rows { edition, $($kind: vec![[0; $numbers]; $kind],)* }
            }

            /// Each kind's rows, one row's numbers after the other's.
            fn all(&self) -> [&[u32]; KINDS.len()] {
                [$(self.$kind.as_flattened()),*]
            }

            fn all_mut(&mut self) -> [&mut [u32]; KINDS.len()] {
                [$(self.$kind.as_flattened_mut()),*]
            }
        }
    };
}

rows! {
    conversion: 15,
    stock: 5,
    harvest: 5,
    parameters: 6,
    abandoned: 7,
    savanna: 14,
    soil: 9,
    crop: 12,
}

/// No rows, in edition 1.
impl Default for Rows {
    fn default() -> Self {
        Self::zeros(1, [0; KINDS.len()])
    }
}

impl Rows {
    pub fn len(&self, kind: u8) -> usize {
        self.each(kind).count()
    }

    pub fn row(&mut self, kind: u8, row: usize) -> &mut [u32] {
        let nth = self.each_mut(kind).nth(row);
        nth.expect("a row of this kind")
    }

    /// The rows of a kind, in order.
    pub fn each(&self, kind: u8) -> impl Iterator<Item = &[u32]> {
        let kind = usize::from(kind) - 1;
        self.all()[kind].chunks(KINDS[kind].numbers)
    }

    pub fn each_mut(&mut self, kind: u8) -> impl Iterator<Item = &mut [u32]> {
        let kind = usize::from(kind) - 1;
        let list = self.all_mut().into_iter().nth(kind).expect("a kind");
        list.chunks_mut(KINDS[kind].numbers)
    }

    pub fn lists(&self) -> [Vec<u32>; KINDS.len()] {
        self.all().map(<[u32]>::to_vec)
    }

    /// How many rows there are of each kind with ids.
    pub fn counts(&self) -> RowCounts {
        WITH_IDS.map(|kind| self.len(kind))
    }
}

/// "One day's return, whole".
#[cfg(test)]
pub fn worked_day() -> Rows {
    Rows {
        conversion: vec![[
            7, 200, 1000, 100, 400, 900, 500, 200, 900, 500, 300, 1000, 100, 300, 500,
        ]],
        stock: vec![[1, 0, 680, 1000, 500]],
        harvest: vec![[1, 500, 950, 300, 0]],
        parameters: vec![[500, 12, 60, 10, 7, 121]],
        ..Rows::default()
    }
}

#[cfg(test)]
#[path = "make_tests.rs"]
mod tests;
