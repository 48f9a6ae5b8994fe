//! The three carbon subtotals as doubles (01, "The doubles").

use crate::judge::{check, Checked, Refusal};
use crate::land::{Conversion, Period, Share};

/// "The answer is three doubles together".
#[derive(Clone, Copy, Debug, PartialEq)]
pub struct Subtotals {
    pub on_site: f64,
    pub off_site: f64,
    pub decay: f64,
}

impl Subtotals {
    pub fn of(checked: Checked) -> Self {
        Subtotals {
            on_site: total(checked, on_site),
            off_site: total(checked, off_site),
            decay: total(checked, decay),
        }
    }

    /// In the order of their codes.
    pub fn in_order(self) -> [f64; 3] {
        [self.on_site, self.off_site, self.decay]
    }
}

/// All three, or the return's refusal.
pub fn subtotals(bytes: &[u8]) -> Result<Subtotals, Refusal> {
    check(bytes).map(Subtotals::of)
}

/// As C asks for one of them: 0 and the double's bits, little-endian, in the
/// first eight bytes of `room`, or 1,000 times the refusal number plus the
/// place and `room` as it was.
pub fn subtotal(bytes: &[u8], code: u32, room: &mut [u8]) -> u32 {
    match figure(bytes, code, room.len()) {
        Ok(figure) => {
            room[..8].copy_from_slice(&figure.to_le_bytes());
            0
        }
        Err(refusal) => refusal.answer(),
    }
}

/// "Sheets and doubles: 1 to 8 (from C, then 11 and last 9)", without 8 (02, §3), with 12
/// "straight after 7" (02, §8) and 13 behind it, "so before 11 and 9" (02, §11).
fn figure(bytes: &[u8], code: u32, room: usize) -> Result<f64, Refusal> {
    let checked = check(bytes)?;
    let row = match code {
        0 => on_site,
        1 => off_site,
        2 => decay,
        _ => {
            return Err(Refusal {
                number: 11,
                place: 0,
            })
        }
    };
    if room < 8 {
        return Err(Refusal {
            number: 9,
            place: 0,
        });
    }
    Ok(total(checked, row))
}

/// "rows added in order from zero". Not `sum`, which begins at -0.
fn total(checked: Checked, row: fn(Conversion) -> f64) -> f64 {
    checked
        .records(1)
        .map(|record| row(Conversion::of(record)))
        .fold(0.0, |sum, row| sum + row)
}

fn on_site(row: Conversion) -> f64 {
    carbon(row.year, row.on_site)
}

fn off_site(row: Conversion) -> f64 {
    carbon(row.year, row.off_site)
}

fn decay(row: Conversion) -> f64 {
    carbon(row.ten_years, row.decay)
}

/// "area times difference, times fraction, times oxidised, times carbon
/// fraction, multiplied in that order as doubles". The difference of two whole
/// numbers is the same before and after it becomes a double, and one that counts
/// as 0 goes through the same steps.
fn carbon(period: Period, share: Share) -> f64 {
    f64::from(period.area)
        * f64::from(period.difference())
        * f64::from(share.fraction)
        * f64::from(share.oxidised)
        * f64::from(share.carbon)
}

#[cfg(test)]
#[path = "doubles_tests.rs"]
mod tests;
