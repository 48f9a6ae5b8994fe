//! Stock rows of scattered trees (02, §12), in the editions that have them.

use super::{Rows, TREES, UNIT_CODE, WITHOUT_TREES};
use crate::rng::Rng;

/// A stock row's numbers.
type Row = [u32; 5];

/// Good rows become trees or land: none, one, all of them, or as they were drawn. In the
/// last edition all are land.
pub(super) fn style_stock(rng: &mut Rng, edition: u16, rows: &mut [Row]) {
    let style = rng.below(6);
    if edition == WITHOUT_TREES || style < 2 {
        rows.iter_mut().for_each(|row| row[UNIT_CODE] = 0);
    }
    if edition != WITHOUT_TREES && !rows.is_empty() {
        match style {
            1 => rows[rng.below(rows.len())][UNIT_CODE] = TREES,
            2 => rows.iter_mut().for_each(|row| row[UNIT_CODE] = TREES),
            _ => {}
        }
    }
}

impl Rows {
    /// The same rows in another edition, good in it if they were before: where it has no
    /// scattered trees they are land.
    pub fn moved_to(mut self, edition: u16) -> Self {
        self.edition = edition;
        if edition == WITHOUT_TREES {
            self.stock.iter_mut().for_each(|row| row[UNIT_CODE] = 0);
        }
        self
    }

    /// Makes some stock rows scattered trees, of at least one: one, a few, or all.
    pub fn plant(&mut self, rng: &mut Rng) -> String {
        let count = self.stock.len();
        let times = rng.pick(&[1, 1, 1, 2, 5, 8 * count]);
        let mut planted = Vec::new();
        for _ in 0..times {
            let at = match rng.below(4) {
                0 => rng.pick(&[0, count - 1, 12 % count, 24 % count]),
                _ => rng.below(count),
            };
            self.stock[at][UNIT_CODE] = TREES;
            planted.push(at);
        }
        planted.sort_unstable();
        planted.dedup();
        format!("trees at {planted:?}")
    }

    /// How many stock rows are scattered trees.
    pub fn trees(&self) -> usize {
        let trees = self.stock.iter().filter(|row| row[UNIT_CODE] == TREES);
        trees.count()
    }
}
