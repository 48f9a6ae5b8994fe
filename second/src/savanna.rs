//! Worksheet 4-3 (02, §5): the carbon that burned savannas set free, and the
//! gases of it.
//!
//! A row's carbon is at most 10^22 and "no longer fits one word"; 32 rows by N/C
//! and a ratio come to 3.2 x 10^29, and 23 times that is well inside 128 bits.

use crate::gases::{Ratios, Released};
use crate::judge::{four, two, Record};
use crate::rounding::Tonnes;

/// The oxidised part of dry matter, and the part of that which is carbon.
#[derive(Clone, Copy)]
struct Burnt {
    oxidised: u16,
    carbon: u16,
}

/// A savanna record by the names of its fields.
#[derive(Clone, Copy)]
pub struct Savanna {
    area: u32,
    density: u16,
    burned: u16,
    live_fraction: u16,
    live: Burnt,
    dead: Burnt,
    ratios: Ratios,
}

impl Savanna {
    pub fn of(r: &Record) -> Self {
        let burnt = |at| Burnt {
            oxidised: two(r, at),
            carbon: two(r, at + 2),
        };
        Savanna {
            area: four(r, 4),
            density: two(r, 8),
            burned: two(r, 10),
            live_fraction: two(r, 12),
            live: burnt(14),
            dead: burnt(18),
            ratios: Ratios::of(r, 22),
        }
    }

    /// "The dead fraction is 1,000 less the live one."
    fn dead_fraction(self) -> u16 {
        1_000 - self.live_fraction
    }

    /// In 10^-15 kt C, the "carbon of both" parts: at most 10^13 x 10^9.
    fn carbon(self) -> u128 {
        let matter = u64::from(self.area) * u64::from(self.density) * u64::from(self.burned);
        let part = |fraction: u16, burnt: Burnt| {
            u64::from(fraction) * u64::from(burnt.oxidised) * u64::from(burnt.carbon)
        };
        let parts = part(self.live_fraction, self.live) + part(self.dead_fraction(), self.dead);
        u128::from(matter) * u128::from(parts)
    }
}

/// The sums over all rows, each with "the row's own" ratios.
pub fn released<'a>(records: impl Iterator<Item = &'a Record>) -> Released {
    let rows = records.map(Savanna::of);
    Released::of(rows.map(|row| (row.carbon(), row.ratios)))
}

/// "gases as in 5-3": a sum by one ratio is in 10^-18 kt = 10^-15 t.
pub fn tonnes(released: &Released) -> [Tonnes; 4] {
    released.tonnes(1_000_000_000_000_000)
}

#[cfg(test)]
#[path = "savanna_tests.rs"]
mod tests;
