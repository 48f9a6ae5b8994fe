//! The wood that clearing carries off beside the wood that is used (02, §8): "Refuse
//! them, with equality still good."
//!
//! K = sum of F x G + 1,000 x (I + J), in 10^-4 kt, and L = sum over conversion rows
//! of area x (before - after) x off-site fraction, in 10^-6 kt. Within the limits 100 K
//! is at most 3.84 x 10^14 and L 3.2 x 10^14.

/// The sums over the rows that were added.
#[derive(Clone, Copy, Debug, Default, PartialEq, Eq)]
pub struct Wood {
    pub k: u64,
    pub l: u64,
}

impl Wood {
    /// A harvest row, by F, G, I and J.
    pub fn use_up(&mut self, [f, g, i, j]: [u32; 4]) {
        self.k += u64::from(f) * u64::from(g) + 1_000 * (u64::from(i) + u64::from(j));
    }

    /// A conversion row's year, by area, density before and after, and off-site
    /// fraction. After above before "counts as 0 [..] in L" (02, §3).
    pub fn clear(&mut self, [area, before, after, off_site]: [u32; 4]) {
        let difference = before.saturating_sub(after);
        self.l += u64::from(area) * u64::from(difference) * u64::from(off_site);
    }

    /// 100 K, in the unit of L.
    pub fn used(self) -> u64 {
        100 * self.k
    }

    /// Number 12 is "when L is above 100K".
    pub fn holds(self) -> bool {
        self.l <= self.used()
    }
}

#[cfg(test)]
#[path = "wood_tests.rs"]
mod tests;
