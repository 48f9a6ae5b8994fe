//! Where every tonne went (02, §13): "five exact dry-matter totals in 10^-9 kt: oxidised on
//! site, charcoal on site, oxidised off site, charcoal off site, and left unburned".
//!
//! A row's five parts come to at most 10^16 and those of a return to 3.2 x 10^17, which
//! 64 bits hold; those of 500 returns to 1.6 x 10^20, which they don't.

use crate::judge::Checked;
use crate::land::{Conversion, Period, Share};
use crate::text::Text;

/// The names of the five lines, each with its space, in the order in which they are printed.
pub const NAMES: [&str; 5] = [
    "oxidised_onsite ",
    "charcoal_onsite ",
    "oxidised_offsite ",
    "charcoal_offsite ",
    "unburned ",
];

/// One number for each of them.
pub type Matter<T = u64> = [T; NAMES.len()];

/// The totals of a return: "Each is defined from the rows on its own."
pub fn matter(checked: Checked) -> Matter {
    let mut totals = Matter::default();
    for row in checked.records(1).map(Conversion::of) {
        for (total, part) in totals.iter_mut().zip(parts(row)) {
            *total += part;
        }
    }
    totals
}

/// A row's five parts. What decays is a part of what is left unburned in the year itself:
/// it is taken from another area, that of the ten years.
pub fn parts(row: Conversion) -> Matter {
    [
        oxidised(row.year, row.on_site),
        charcoal(row.year, row.on_site),
        oxidised(row.year, row.off_site),
        charcoal(row.year, row.off_site),
        unburned(row),
    ]
}

/// Area times counted difference, in 10^-3 kt.
fn cleared(year: Period) -> u64 {
    u64::from(year.area) * u64::from(year.difference())
}

fn oxidised(year: Period, share: Share) -> u64 {
    cleared(year) * u64::from(share.fraction) * u64::from(share.oxidised)
}

/// What is burned and not oxidised.
fn charcoal(year: Period, share: Share) -> u64 {
    cleared(year) * u64::from(share.fraction) * u64::from(1_000 - share.oxidised)
}

/// "the last from 1,000 less the two burned fractions"
fn unburned(row: Conversion) -> u64 {
    let burned = row.on_site.fraction + row.off_site.fraction;
    cleared(row.year) * u64::from(1_000 - burned) * 1_000
}

/// A line for each of the five.
pub(crate) fn print(totals: Matter, text: &mut Text) {
    for (name, total) in NAMES.into_iter().zip(totals) {
        text.line(name, total);
    }
}

#[cfg(test)]
#[path = "matter_tests.rs"]
mod tests;
