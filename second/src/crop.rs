//! Worksheet 4-4 (02, §14): the carbon that crop residues set free where they are burned in
//! the fields, and the gases of it, "Gases only": "residues are no net CO2".
//!
//! A row's carbon is at most 10^23 and takes two words; 32 rows by N/C and a ratio come to
//! 3.2 x 10^30, and 23 times that is well inside 128 bits.

use crate::gases::{Ratios, Released};
use crate::judge::{four, two, Record};
use crate::rounding::Tonnes;

/// A crop record by the names of its fields.
#[derive(Clone, Copy)]
pub struct Crop {
    production: u32,
    residue_ratio: u16,
    dry_matter: u16,
    burned: u16,
    oxidised: u16,
    carbon_fraction: u16,
    ratios: Ratios,
}

impl Crop {
    pub fn of(r: &Record) -> Self {
        Crop {
            production: four(r, 4),
            residue_ratio: two(r, 8),
            dry_matter: two(r, 10),
            burned: two(r, 12),
            oxidised: two(r, 14),
            carbon_fraction: two(r, 16),
            ratios: Ratios::of(r, 18),
        }
    }

    /// Column J of the workbook in 10^-16 kt C, at most 10^13 x 10^10: 0.1 kt by 0.01 and
    /// three times 0.001, and by a carbon fraction of 0.0001.
    fn carbon(self) -> u128 {
        let dry =
            u64::from(self.production) * u64::from(self.residue_ratio) * u64::from(self.dry_matter);
        let burned =
            u64::from(self.burned) * u64::from(self.oxidised) * u64::from(self.carbon_fraction);
        u128::from(dry) * u128::from(burned)
    }
}

/// The sums over all rows: "N/C and four ratios per crop", and "each summed exactly over the
/// rows". The workbook takes its ratios of the totals; the request decides.
pub fn released<'a>(records: impl Iterator<Item = &'a Record>) -> Released {
    let rows = records.map(Crop::of);
    Released::of(rows.map(|row| (row.carbon(), row.ratios)))
}

/// "as in 5-3": a sum by one ratio is in 10^-19 kt = 10^-16 t.
pub fn tonnes(released: &Released) -> [Tonnes; 4] {
    released.tonnes(10_000_000_000_000_000)
}

#[cfg(test)]
#[path = "crop_tests.rs"]
mod tests;
