//! Rows that burn and have ratios of their own, at random and of all sizes: those of
//! savannas and of crops.

use super::{fields, Rows, MOST_ROWS};
use crate::rng::Rng;

/// A kind of such rows: N/C, CH4, CO, N2O and NOx stand behind all other numbers.
pub struct Burnt {
    pub kind: u8,
    /// The positions of the numbers that carbon grows with, and what it comes to with all
    /// of them at their limits.
    pub factors: &'static [usize],
    pub largest: u128,
    /// The parts of a tonne that carbon by one ratio is counted in.
    pub parts: u128,
    pub carbon: fn(&[u32]) -> u128,
    /// Sets a row's carbon to a digit, of at most 10,000 for the fourth, x 10^(6 x power).
    pub set_carbon: fn(&mut Rng, &mut [u32], u32, usize),
}

/// N/C, and CH4, CO, N2O and NOx.
const RATIOS: usize = 5;

/// The ratios of a row, N/C first.
pub fn ratios(row: &[u32]) -> &[u32] {
    &row[row.len() - RATIOS..]
}

pub fn ratios_mut(row: &mut [u32]) -> &mut [u32] {
    let first = row.len() - RATIOS;
    &mut row[first..]
}

impl Burnt {
    /// As much carbon as there can be; the ratios are left as they are.
    pub fn enlarge(&self, row: &mut [u32]) {
        for &at in self.factors {
            row[at] = fields(self.kind)[at].most;
        }
    }
}

/// What the rows of a return are like.
#[derive(Clone, Copy)]
enum Style {
    /// Each field like any other kind's: zeros, limits and all between.
    Any,
    /// No field is zero.
    Filled,
    /// Hardly any carbon.
    Small,
    /// As much carbon as there can be.
    Largest,
    /// Each row in one of these ways.
    Mixed,
}

const STYLES: [Style; 6] = [
    Style::Any,
    Style::Filled,
    Style::Small,
    Style::Largest,
    Style::Mixed,
    Style::Mixed,
];

/// Good rows of a kind become of a style.
pub(super) fn style_burnt(rng: &mut Rng, rows: &mut Rows, of: &Burnt) {
    let mut style = rng.pick(&STYLES);
    // The largest sums there are want all rows, which are rare by themselves.
    if rows.len(of.kind) == MOST_ROWS && rng.one_in(4) {
        style = Style::Largest;
    }
    for row in rows.each_mut(of.kind) {
        let own = match (style, rng.below(8)) {
            (Style::Mixed, 0..4) => Style::Any,
            (Style::Mixed, 4..6) => Style::Filled,
            (Style::Mixed, 6) => Style::Small,
            (Style::Mixed, _) => Style::Largest,
            (style, _) => style,
        };
        match own {
            Style::Filled => fill(rng, of.kind, row),
            Style::Small => row[1..].fill_with(|| rng.pick(&[0, 1, 1, 1, 2, 9])),
            Style::Largest => of.enlarge(row),
            Style::Any | Style::Mixed => {}
        }
    }
}

fn fill(rng: &mut Rng, kind: u8, row: &mut [u32]) {
    for (value, field) in row.iter_mut().zip(fields(kind)).skip(1) {
        *value = rng.from_to(1, field.most);
    }
}
