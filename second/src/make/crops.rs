//! Crop rows: their carbon, and how it is set.

use super::burnt::Burnt;
use crate::rng::Rng;

/// A crop row's numbers.
pub type CropRow = [u32; 12];

/// The position of the carbon fraction, which is in ten-thousandths.
pub const CROP_CARBON: usize = 6;

pub static CROPS: Burnt = Burnt {
    kind: 8,
    factors: &[1, 2, 3, 4, 5, CROP_CARBON],
    largest: 100_000_000_000_000_000_000_000,
    parts: 10_000_000_000_000_000,
    carbon: |row| {
        row[1..=CROP_CARBON]
            .iter()
            .copied()
            .map(u128::from)
            .product()
    },
    set_carbon,
};

fn set_carbon(rng: &mut Rng, row: &mut [u32], digit: u32, power: usize) {
    // What all but the production come to is 10^(6 x power), or for the last 10^16.
    let (production, others) = match power {
        0 => (digit, [1; 5]),
        1 => (digit, rng.pick(&SIX_ZEROS)),
        2 => (digit, rng.pick(&TWELVE_ZEROS)),
        _ => (100 * digit, [1_000, 1_000, 1_000, 1_000, 10_000]),
    };
    row[1] = production;
    row[2..=CROP_CARBON].copy_from_slice(&others);
}

/// Ratio and fractions that come to 10^6, and to 10^12.
const SIX_ZEROS: [[u32; 5]; 5] = [
    [1_000, 1_000, 1, 1, 1],
    [1, 1, 1_000, 100, 10],
    [1, 1, 1, 100, 10_000],
    [8, 125, 1, 1_000, 1],
    [1, 25, 40, 1, 1_000],
];
const TWELVE_ZEROS: [[u32; 5]; 4] = [
    [1_000, 1_000, 1_000, 1_000, 1],
    [1_000, 10, 1_000, 10, 10_000],
    [1, 1_000, 100, 1_000, 10_000],
    [1_000, 800, 125, 1_000, 10],
];
