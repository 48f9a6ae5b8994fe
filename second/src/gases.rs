//! Carbon that is set free by burning, and the gases of it, "as in 5-3": of worksheet 5-3
//! itself (01), and of the rows of savannas (02, §5) and of crops (02, §14), which have
//! ratios of their own.

use crate::judge::{two, Record};
use crate::rounding::Tonnes;

/// N/C, and the ratio of each gas.
#[derive(Clone, Copy)]
pub struct Ratios {
    pub nitrogen: u16,
    pub ch4: u16,
    pub co: u16,
    pub n2o: u16,
    pub nox: u16,
}

impl Ratios {
    /// "the row's own N/C, CH4, CO, N2O and NOx", from this byte of its record on.
    pub fn of(r: &Record, at: usize) -> Self {
        let [nitrogen, ch4, co, n2o, nox] = [0, 2, 4, 6, 8].map(|more| two(r, at + more));
        Ratios {
            nitrogen,
            ch4,
            co,
            n2o,
            nox,
        }
    }
}

/// Exact sums: carbon, carbon x ratio for CH4 and CO, and carbon x N/C x ratio for N2O
/// and NOx, each row's carbon by the row's ratios.
#[derive(Clone, Copy, Default)]
pub struct Released {
    pub carbon: u128,
    ch4: u128,
    co: u128,
    n2o: u128,
    nox: u128,
}

impl Released {
    pub fn of(rows: impl IntoIterator<Item = (u128, Ratios)>) -> Self {
        let mut sums = Released::default();
        rows.into_iter()
            .for_each(|(carbon, ratios)| sums.add(carbon, ratios));
        sums
    }

    fn add(&mut self, carbon: u128, ratios: Ratios) {
        let nitrogen = carbon * u128::from(ratios.nitrogen);
        self.carbon += carbon;
        self.ch4 += carbon * u128::from(ratios.ch4);
        self.co += carbon * u128::from(ratios.co);
        self.n2o += nitrogen * u128::from(ratios.n2o);
        self.nox += nitrogen * u128::from(ratios.nox);
    }

    /// CH4, CO, N2O and NOx before they are "rounded once", where a sum by one ratio is
    /// in so many parts of a tonne; a sum by N/C too is in a thousand times as many.
    pub fn tonnes(&self, parts: u128) -> [Tonnes; 4] {
        let gas = |times: i128, sum: u128, below: u128| Tonnes::of(times * sum as i128, below);
        [
            gas(4, self.ch4, 3 * parts),
            gas(7, self.co, 3 * parts),
            gas(11, self.n2o, 7_000 * parts),
            gas(23, self.nox, 7_000 * parts),
        ]
    }
}
