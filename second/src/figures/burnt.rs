//! Returns made for the sake of the gases of rows that burn: on a half and beside it, and
//! at the limits.

use super::{more_steps, solve};
use crate::make::{place_of, ratios, ratios_mut, Burnt, Rows, MOST_ROWS, WITH_IDS};
use crate::rng::Rng;

/// Rows that bring the carbon that is missing, a digit to the base 10^6 each.
const SPARE: usize = 4;
/// CH4, CO, N2O and NOx.
const GASES: usize = 4;

/// What a gas's sum is multiplied with and divided by, in tonnes.
fn by(of: &Burnt, gas: usize) -> (u128, u128) {
    let times = [4, 7, 11, 23][gas];
    (times, of.parts * if gas < 2 { 3 } else { 7_000 })
}

/// By what a row's carbon goes into a gas.
fn ratio(row: &[u32], gas: usize) -> u128 {
    let nitrogen = if gas < 2 { 1 } else { ratios(row)[0] };
    u128::from(nitrogen) * u128::from(ratios(row)[1 + gas])
}

fn gas_sum(rows: &Rows, of: &Burnt, gas: usize) -> u128 {
    let row = |row: &[u32]| (of.carbon)(row) * ratio(row, gas);
    rows.each(of.kind).map(row).sum()
}

/// Takes all of a row's carbon away.
fn without_carbon(row: &mut [u32]) {
    row[1] = 0;
}

/// One of the gases on a half or one step beside it.
pub(super) fn gas_near_half(rng: &mut Rng, of: &Burnt) -> Rows {
    let mut rows = with_spare_rows(rng, of);
    let first = rng.below(rows.len(of.kind) - SPARE + 1);
    let gas = rng.below(GASES);
    let [nitrogen, own] = spare_ratios(rng);
    for row in rows.each_mut(of.kind).skip(first).take(SPARE) {
        let ratios = ratios_mut(row);
        (ratios[0], ratios[1 + gas]) = (nitrogen, own);
        without_carbon(row);
    }
    let (times, below) = by(of, gas);
    let there = times * gas_sum(&rows, of, gas) % below;
    let due = (below / 2 + below - there) % below;
    let (carbon, step) = solve(times * ratio(rows.row(of.kind, first), gas), due, below);
    let carbon = carbon + step * u128::from(more_steps(rng));
    let carbon = beside(rng, carbon);
    let spare = rows.each_mut(of.kind).skip(first).take(SPARE);
    for (power, row) in spare.enumerate() {
        let digit = carbon / 1_000_000u128.pow(power as u32);
        let digit = if power < SPARE - 1 {
            digit % 1_000_000
        } else {
            digit
        };
        (of.set_carbon)(rng, row, digit as u32, power);
    }
    rows
}

/// Good rows with so many of this kind and a few of the others.
fn with_rows(rng: &mut Rng, of: &Burnt, count: usize) -> Rows {
    let mut counts = WITH_IDS.map(|_| rng.below(3));
    counts[place_of(of.kind).expect("a kind with ids")] = count;
    Rows::good_in_later(rng, counts)
}

/// Some good rows. Now and then all carbon is the spare rows', so that small
/// halves come too.
fn with_spare_rows(rng: &mut Rng, of: &Burnt) -> Rows {
    let more = rng.pick(&[0, 0, 1, 8, 9, MOST_ROWS - SPARE]);
    let mut rows = with_rows(rng, of, SPARE + more);
    if rng.one_in(3) {
        rows.each_mut(of.kind).for_each(without_carbon);
    }
    rows
}

/// N/C and a gas's ratio. Without 2, 3, 5 and 7 in them every half is in reach.
fn spare_ratios(rng: &mut Rng) -> [u32; 2] {
    let any = [0; 2].map(|_| rng.from_to(1, 1_000));
    let good = [0; 2].map(|_| rng.pick(&[1, 1, 1, 1, 11, 121, 143, 529, 997]));
    rng.pick(&[any, good, good, good])
}

/// The same, or now and then one more or less.
fn beside(rng: &mut Rng, carbon: u128) -> u128 {
    match rng.below(6) {
        0 => carbon + 1,
        1 => carbon.saturating_sub(1),
        _ => carbon,
    }
}

/// Nearly all values of a kind at their limits, in few rows or many.
pub(super) fn large_alone(rng: &mut Rng, of: &Burnt) -> Rows {
    let count = rng.pick(&[1, 2, 12, 31, 32, 32, 32, 32]);
    let mut rows = with_rows(rng, of, count);
    enlarge(rng, &mut rows, of);
    rows
}

/// As much carbon as there can be, in half of the returns a little less. The
/// ratios are as large too, or any.
pub(super) fn enlarge(rng: &mut Rng, rows: &mut Rows, of: &Burnt) {
    let [less, full] = [rng.one_in(2), rng.one_in(2)];
    for row in rows.each_mut(of.kind) {
        of.enlarge(row);
        if full {
            ratios_mut(row).fill(1_000);
        }
        if less {
            row[rng.pick(of.factors)] -= rng.from_to(0, 3);
        }
    }
}

#[cfg(test)]
#[path = "burnt_tests.rs"]
mod tests;
