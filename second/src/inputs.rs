//! Which input of a comparison comes from which maker.

use crate::case::Case;
use crate::rng::Rng;
use crate::{clashes, clearings, figures, mix, plots, sweep, trees, weights};

/// One input in this many comes from the sweeps, until they are used up.
const SWEEP_EVERY: usize = 4;
const LEAST_INPUTS: usize = 200_000;

/// The fewest inputs a comparison may have: the sweeps must come to their end.
pub fn least() -> usize {
    LEAST_INPUTS.max(SWEEP_EVERY * sweep::size())
}

/// All kinds of damage and every length.
pub fn plain(index: usize, rng: &mut Rng) -> Case {
    let turn = index / SWEEP_EVERY;
    if index.is_multiple_of(SWEEP_EVERY) && turn < sweep::size() {
        sweep::case(turn, rng)
    } else {
        mix::case(rng)
    }
}

/// As [`plain`], with every fourth input made for the sake of its figures.
pub fn with_figures(index: usize, rng: &mut Rng) -> Case {
    if index % SWEEP_EVERY == 1 {
        figures::case(rng)
    } else {
        plain(index, rng)
    }
}

/// One input in this many comes from the sweeps where they have to be over sooner.
const SOONER: usize = 2;

/// As [`least`], for [`explained`].
pub fn least_explained() -> usize {
    LEAST_INPUTS.max(SOONER * sweep::size())
}

/// For the sake of what is said about them: the sweeps, and as often the others.
pub fn explained(index: usize, rng: &mut Rng) -> Case {
    let turn = index / SOONER;
    if index.is_multiple_of(SOONER) && turn < sweep::size() {
        sweep::case(turn, rng)
    } else {
        drawn_explained(rng)
    }
}

/// The mixture, several clashes at one place, rows by their weight, wood that is cleared
/// and used nearly alike, soils that are nearly even, and scattered trees.
pub fn drawn_explained(rng: &mut Rng) -> Case {
    match rng.below(11) {
        0..4 => mix::case(rng),
        4 | 5 => clashes::case(rng),
        6 | 7 => weights::case(rng),
        8 => clearings::case(rng),
        9 => plots::case(rng),
        _ => trees::case(rng),
    }
}
