//! Harvest rows that cover what clearing carries off (02, §8), or miss it by a
//! chosen amount.

use super::{Rows, AFTER, BEFORE, MOST_ROWS, SUMMED};
use crate::rng::Rng;

/// A harvest row's numbers.
type Harvest = [u32; 5];
/// A conversion row's.
type Conversion = [u32; 15];

const AREA: usize = 1;
const OFF_SITE: usize = SUMMED[1];
/// What one harvest row can be made to add to K, exactly; its limits allow 1.2 x 10^11.
const MOST_TAKEN: u64 = 110_000_000_000;
/// The most of I and of J.
const MOST_AMOUNT: u64 = 10_000_000;
/// The most that 1,000 x (I + J) comes to.
const MOST_THOUSANDS: u64 = 2_000 * MOST_AMOUNT;

/// 100 K and L of any rows, those above their limits included.
pub fn used_and_cleared(conversion: &[Conversion], harvest: &[Harvest]) -> [u128; 2] {
    let product = |factors: &[u32]| -> u128 { factors.iter().map(|&f| u128::from(f)).product() };
    let taken =
        |row: &Harvest| product(&row[1..3]) + 1_000 * (product(&[row[3]]) + product(&[row[4]]));
    let carried = |row: &Conversion| {
        let difference = row[BEFORE[0]].saturating_sub(row[AFTER[0]]);
        product(&[row[AREA], difference, row[OFF_SITE]])
    };
    [
        100 * harvest.iter().map(taken).sum::<u128>(),
        conversion.iter().map(carried).sum(),
    ]
}

impl Rows {
    /// 100 K and L.
    pub fn used_and_cleared(&self) -> [u128; 2] {
        used_and_cleared(&self.conversion, &self.harvest)
    }

    /// Where more is cleared than used, more is used: as little more as there can be,
    /// or any. Where the harvest rows that there are can't use so much, less is
    /// cleared. No row comes or goes.
    pub fn cover(&mut self, rng: &mut Rng) {
        let [used, cleared] = self.used_and_cleared();
        if cleared <= used {
            return;
        }
        let needed = self.clear_less(0);
        let most = MOST_TAKEN * self.harvest.len() as u64;
        let k = if rng.one_in(4) {
            needed
        } else {
            between(rng, needed, most)
        };
        use_up(rng, &mut self.harvest, k);
    }

    /// The same for the sake of the conversion rows, which stay as they are: harvest
    /// rows come where they are needed, and so much more than L is used.
    pub fn cover_with_more(&mut self, rng: &mut Rng, spare: u64) {
        let [used, cleared] = self.used_and_cleared();
        let due = cleared + u128::from(spare);
        if due <= used {
            return;
        }
        let needed = due.div_ceil(100) as u64;
        let rows = needed.div_ceil(MOST_TAKEN) as usize;
        self.add_harvest(rows.max(1));
        use_up(rng, &mut self.harvest, needed);
    }

    /// Brings L to 100 K and so much more, or less. There must be a conversion row and
    /// a harvest row; one conversion row is given up for the last digits.
    pub fn balance(&mut self, rng: &mut Rng, more: i64) {
        let last = rng.below(self.conversion.len());
        // Some hundreds, so that L is not below what it has to be more than 100 K.
        let hundreds = 2 + more.max(0) / 100 + rng.below(8) as i64;
        self.set_cleared(last, 100 * hundreds);
        self.clear_less(more.unsigned_abs() + 1_000);
        let [_, cleared] = self.used_and_cleared();
        let digits = (more - cleared as i64).rem_euclid(100);
        self.set_cleared(last, 100 * hundreds + digits);
        let [_, cleared] = self.used_and_cleared();
        let k = (cleared as i64 - more) / 100;
        use_up(rng, &mut self.harvest, k as u64);
    }

    /// A conversion row whose part of L is this small number.
    fn set_cleared(&mut self, row: usize, cleared: i64) {
        let row = &mut self.conversion[row];
        row[AREA] = cleared as u32;
        row[AFTER[0]] = row[AFTER[0]].min(9_999);
        row[BEFORE[0]] = row[AFTER[0]] + 1;
        row[OFF_SITE] = 1;
        // The other fractions leave room for it.
        let [on_site, _, decay] = SUMMED;
        row[on_site] = row[on_site].min(999);
        row[decay] = row[decay].min(999 - row[on_site]);
    }

    /// Takes off-site fractions away until the harvest rows can use up L and so much
    /// more. The K that is needed.
    fn clear_less(&mut self, spare: u64) -> u64 {
        let most = MOST_TAKEN * self.harvest.len() as u64;
        let mut row = 0;
        loop {
            let [_, cleared] = self.used_and_cleared();
            let needed = (cleared + u128::from(spare)).div_ceil(100) as u64;
            if needed <= most || row == self.conversion.len() {
                return needed.min(most);
            }
            // A row that clears only a few units is kept, for the last digits.
            if self.conversion[row][OFF_SITE] > 1 || most == 0 {
                self.conversion[row][OFF_SITE] = 0;
            }
            row += 1;
        }
    }

    /// At least so many harvest rows, the new ones of zeros with the ids next to those
    /// that there are.
    fn add_harvest(&mut self, rows: usize) {
        debug_assert!(rows <= MOST_ROWS);
        while self.harvest.len() < rows {
            let id = match self.harvest.last() {
                None => 0,
                Some(row) if row[0] < u32::MAX => row[0] + 1,
                Some(_) => {
                    // No id is left above, so all begin again.
                    let ids = 0..;
                    let rows = self.harvest.iter_mut();
                    rows.zip(ids).for_each(|(row, id)| row[0] = id);
                    continue;
                }
            };
            self.harvest.push([id, 0, 0, 0, 0]);
        }
    }
}

/// Shares K out over the rows, of which there must be enough, from any of them on: as
/// little or as much as can be, evenly, or any part.
fn use_up(rng: &mut Rng, rows: &mut [Harvest], k: u64) {
    let count = rows.len();
    let first = rng.below(count.max(1));
    let mut left = k;
    for nth in 0..count {
        // This row and those that come behind it.
        let waiting = (count - nth) as u64;
        let least = left.saturating_sub(MOST_TAKEN * (waiting - 1));
        let most = left.min(MOST_TAKEN);
        let [any, even] = [between(rng, least, most), left.div_ceil(waiting)];
        let part = rng.pick(&[least, most, any, even, even]);
        rows[(first + nth) % count][1..].copy_from_slice(&taken(rng, part));
        left -= part;
    }
}

/// F, G, I and J of a row that adds exactly this to K.
fn taken(rng: &mut Rng, k: u64) -> [u32; 4] {
    let by_volume = k > MOST_THOUSANDS || (k >= MOST_AMOUNT && rng.one_in(2));
    let [f, g] = if by_volume {
        // 9,999 F ends in the same three digits as K where F + K ends in zeros.
        let most = (k / 9_999).min(MOST_AMOUNT);
        [most - (most + k) % 1_000, 9_999]
    } else if rng.one_in(2) {
        [k % 1_000, 1]
    } else {
        [1, k % 1_000]
    };
    let thousands = (k - f * g) / 1_000;
    let i = between(
        rng,
        thousands.saturating_sub(MOST_AMOUNT),
        thousands.min(MOST_AMOUNT),
    );
    [f, g, i, thousands - i].map(|number| number as u32)
}

/// A number from `low` to `high`, both included.
fn between(rng: &mut Rng, low: u64, high: u64) -> u64 {
    low + rng.below((high - low) as usize + 1) as u64
}

#[cfg(test)]
#[path = "harvest_tests.rs"]
mod tests;
