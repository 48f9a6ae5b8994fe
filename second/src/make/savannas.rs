//! Random good savanna rows, of all sizes.

use super::burnt::{style_burnt, Burnt};
use super::{Rows, DEAD_BURNT, LIVE, LIVE_BURNT};
use crate::rng::Rng;

/// With oxidised and carbon fractions of 1,000 the live fraction changes nothing.
pub static SAVANNAS: Burnt = Burnt {
    kind: 6,
    factors: &[1, 2, 3, 5, 6, 7, 8],
    largest: 10_000_000_000_000_000_000_000,
    parts: 1_000_000_000_000_000,
    carbon: |row| savanna_carbon(row).iter().sum(),
    set_carbon,
};

/// Good rows become of a style, and now and then all live or all dead.
pub(super) fn style_savannas(rng: &mut Rng, rows: &mut Rows) {
    style_burnt(rng, rows, &SAVANNAS);
    for row in &mut rows.savanna {
        if rng.one_in(6) {
            row[LIVE] = rng.pick(&[0, 1_000]);
        }
    }
}

/// The carbon of a row's live and of its dead part.
pub fn savanna_carbon(row: &[u32]) -> [u128; 2] {
    let part = |fraction: u32, burnt: [usize; 2]| {
        let [oxidised, carbon] = burnt.map(|at| row[at]);
        let factors = [row[1], row[2], row[3], fraction, oxidised, carbon];
        factors.into_iter().map(u128::from).product()
    };
    [
        part(row[LIVE], LIVE_BURNT),
        part(1_000 - row[LIVE], DEAD_BURNT),
    ]
}

fn set_carbon(rng: &mut Rng, row: &mut [u32], digit: u32, power: usize) {
    let any = rng.from_to(0, 1_000);
    let live = rng.pick(&[0, 1, 500, 999, 1_000, any, any]);
    // Together one thousandth of a thousandth, of live and of dead alike.
    let small = [0; 2].map(|_| rng.pick(&[[1, 1_000], [1_000, 1], [8, 125], [25, 40]]));
    let (area, density, burned, live, [of_live, of_dead]) = match power {
        // So little is one part's alone.
        0 if rng.one_in(2) => (digit, 1, 1, 1, [[1, 1], [0, any]]),
        0 => (digit, 1, 1, 999, [[any, 0], [1, 1]]),
        1 => (digit, 1, 1, live, small),
        2 if rng.one_in(2) => (digit, 1_000, 1_000, live, small),
        2 => (digit, 1, 1_000, live, [[1_000; 2]; 2]),
        _ => (100 * digit, 10_000, 1_000, live, [[1_000; 2]; 2]),
    };
    row[1..=LIVE].copy_from_slice(&[area, density, burned, live]);
    for (at, value) in LIVE_BURNT.into_iter().zip(of_live) {
        row[at] = value;
    }
    for (at, value) in DEAD_BURNT.into_iter().zip(of_dead) {
        row[at] = value;
    }
}
