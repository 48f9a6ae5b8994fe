//! Worksheets 5-5 (sheet 1) and 5-5A (02, §11): what mineral soils gained or lost in
//! twenty years.
//!
//! A soil's carbon is at most 10,000 x 300^3 = 2.7 x 10^11, a stock 2.7 x 10^16 and 32
//! of them 8.64 x 10^17, well inside a signed word.

use crate::judge::{four, two, Record};
use crate::rounding::Tonnes;

/// A soil record by the names of its fields.
#[derive(Clone, Copy)]
pub struct Soil {
    now: u32,
    then: u32,
    native: u16,
    /// Base, tillage and input.
    factors: [u16; 3],
}

impl Soil {
    pub fn of(r: &Record) -> Self {
        Soil {
            now: four(r, 8),
            then: four(r, 12),
            native: two(r, 16),
            factors: [18, 20, 22].map(|at| two(r, at)),
        }
    }

    /// "Soil carbon is the product of native carbon and the three factors".
    fn carbon(self) -> i64 {
        let factors = self.factors.map(i64::from);
        i64::from(self.native) * factors.iter().product::<i64>()
    }

    /// "a stock is that times the area": the stock now less that of twenty years ago.
    fn gain(self) -> i64 {
        let [now, then] = [self.now, self.then].map(|area| self.carbon() * i64::from(area));
        now - then
    }
}

/// "the sum of stocks now less that of twenty years ago", in 10^-4 t C: 0.001 Mha are
/// 1,000 ha, by 0.1 t/ha and three times 0.01.
pub fn gained<'a>(records: impl Iterator<Item = &'a Record>) -> i64 {
    records.map(|r| Soil::of(r).gain()).sum()
}

/// "over 20, signed": tonnes of carbon a year before they are "rounded once".
pub fn yearly(gained: i64) -> Tonnes {
    Tonnes::of(gained, 20 * 10_000)
}

#[cfg(test)]
#[path = "soil_tests.rs"]
mod tests;
