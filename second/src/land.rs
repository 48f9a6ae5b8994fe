//! A conversion record by the names of its fields, for the worksheets and the
//! doubles.

use crate::judge::{four, two, Record};

/// Area and densities of one period.
#[derive(Clone, Copy)]
pub struct Period {
    pub area: u32,
    pub before: u16,
    pub after: u16,
}

impl Period {
    /// Before less after. A period with after above before "has nothing to burn
    /// or decay: its difference counts as 0" (02, §3).
    pub fn difference(self) -> u16 {
        self.before.saturating_sub(self.after)
    }

    pub fn is_thinner(self) -> bool {
        self.after > self.before
    }
}

/// A fraction of the dry matter, the part of it that is oxidised, and the part
/// of that which is carbon.
#[derive(Clone, Copy)]
pub struct Share {
    pub fraction: u16,
    pub oxidised: u16,
    pub carbon: u16,
}

#[derive(Clone, Copy)]
pub struct Conversion {
    pub year: Period,
    pub on_site: Share,
    pub off_site: Share,
    pub ten_years: Period,
    pub decay: Share,
}

impl Conversion {
    pub fn of(r: &Record) -> Self {
        let period = |area, densities| Period {
            area: four(r, area),
            before: two(r, densities),
            after: two(r, densities + 2),
        };
        let burnt = |at| Share {
            fraction: two(r, at),
            oxidised: two(r, at + 2),
            carbon: two(r, at + 4),
        };
        Conversion {
            year: period(4, 8),
            on_site: burnt(12),
            off_site: burnt(18),
            ten_years: period(24, 28),
            // "Decay carbon takes the ten-year fields with oxidised 1,000."
            decay: Share {
                fraction: two(r, 32),
                oxidised: 1_000,
                carbon: two(r, 34),
            },
        }
    }
}

#[cfg(test)]
#[path = "land_tests.rs"]
mod tests;
