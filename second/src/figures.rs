//! Good returns made for the sake of their figures: on a half and beside it,
//! at the limits, and with doubles that round badly.

mod burnt;
mod soil;

use crate::case::Case;
use crate::make::{thin, Rows, AFTER, BEFORE, CROPS, FIRST_WITH_IDS, LATER_EDITIONS};
use crate::make::{MOST_ROWS, SAVANNAS, SUMMED, WITH_IDS};
use crate::rng::Rng;
use crate::worst;

/// A random return of this kind.
pub fn case(rng: &mut Rng) -> Case {
    let (how, mut rows) = match rng.below(24) {
        0..3 => ("Q near a half", q_near_half(rng)),
        3 => ("co2 near a half", co2_near_half(rng)),
        4..8 => ("a gas near a half", gas_near_half(rng)),
        8 => ("large rows", large(rng)),
        9 => ("rows that round badly", {
            let (rows, which) = (1 + rng.below(MOST_ROWS), worst::Which::any(rng));
            worst::steep(rng, rows, which)
        }),
        10 => (
            "all rows",
            Rows::good_in_later(rng, [MOST_ROWS; WITH_IDS.len()]),
        ),
        11 => ("uptake near a half", uptake_near_half(rng)),
        12..16 => (
            "a savanna gas near a half",
            burnt::gas_near_half(rng, &SAVANNAS),
        ),
        16 => ("large savannas", burnt::large_alone(rng, &SAVANNAS)),
        17 | 18 => ("soils near a half", soil::near_half(rng)),
        19..22 => ("a crop gas near a half", burnt::gas_near_half(rng, &CROPS)),
        22 => ("large crops", burnt::large_alone(rng, &CROPS)),
        _ => ("all rows", Rows::good(rng, [MOST_ROWS; 3])),
    };
    if rows.edition == 1 {
        rows = match rng.below(10) {
            0..3 => add_later_kinds(rng, rows),
            3 => {
                let edition = rng.pick(&LATER_EDITIONS);
                rows.moved_to(edition)
            }
            _ => rows,
        };
    }
    let how = format!("{how}, edition {}, {:?} rows", rows.edition, rows.counts());
    let bytes = rows.to_bytes();
    Case { how, bytes }
}

/// The same rows in a later edition, with some of the kinds above 4.
fn add_later_kinds(rng: &mut Rng, rows: Rows) -> Rows {
    let mut counts = [0; WITH_IDS.len()];
    counts[FIRST_WITH_IDS..].fill_with(|| rng.pick(&[0, 1, 2, 12, 13, 32]));
    let more = Rows::good_in_later(rng, counts);
    let Rows { edition, .. } = more;
    let rows = Rows {
        conversion: rows.conversion,
        stock: rows.stock,
        harvest: rows.harvest,
        parameters: rows.parameters,
        ..more
    };
    rows.moved_to(edition)
}

/// Uptake on a half or beside it. The last row is one for single units, of land
/// abandoned up to twenty years or longer.
fn uptake_near_half(rng: &mut Rng) -> Rows {
    let below = 30_000;
    let mut counts = [0; WITH_IDS.len()].map(|_| rng.below(3));
    counts[3] = 1 + rng.pick(&[0, 0, 1, 2, 12, 31]);
    let mut rows = Rows::good_in_later(rng, counts);
    if rng.one_in(2) {
        // Small values, near zero.
        let small = |row: &mut [u32; 7]| row[1..].iter_mut().for_each(|v| *v %= 10);
        rows.abandoned.iter_mut().for_each(small);
    }
    let last = rows.abandoned.len() - 1;
    rows.abandoned[last][1..].fill(0);
    let (due, step) = solve(11, near_half(rng, below), below);
    let missing = (due + step - uptake(&rows) % step) % step;
    let missing = missing + step * u128::from(more_steps(rng));
    let age = rng.pick(&[1, 4]);
    rows.abandoned[last][age..age + 3].copy_from_slice(&[missing as u32, 1, 1]);
    rows
}

/// Uptake of worksheet 5-4, from the rows.
fn uptake(rows: &Rows) -> u128 {
    let product = |age: &[u32]| -> u128 { age.iter().map(|&f| u128::from(f)).product() };
    let row = |row: &[u32; 7]| product(&row[1..4]) + product(&row[4..]);
    rows.abandoned.iter().map(row).sum()
}

/// Before less after, or 0 where there is more after.
fn counted(row: &[u32; 15], period: usize) -> u32 {
    row[BEFORE[period]].saturating_sub(row[AFTER[period]])
}

/// A row's carbon by share: 0 on-site, 1 off-site, 2 decay.
fn carbon(row: &[u32; 15], share: usize) -> u128 {
    let difference = |period: usize| counted(row, period);
    let factors = match share {
        0 => [row[1], difference(0), row[4], row[5], row[6]],
        1 => [row[1], difference(0), row[7], row[8], row[9]],
        _ => [row[10], difference(1), row[13], 1_000, row[14]],
    };
    factors.into_iter().map(u128::from).product()
}

fn carbon_sum(rows: &Rows, shares: &[usize]) -> u128 {
    let sum = |&share: &usize| -> u128 { rows.conversion.iter().map(|r| carbon(r, share)).sum() };
    shares.iter().map(sum).sum()
}

/// P of worksheet 5-1, from the rows.
fn p(rows: &Rows) -> i128 {
    let wide = |row: &[u32], at: &[usize]| at.iter().map(|&i| i128::from(row[i])).product::<i128>();
    let e: i128 = rows.stock.iter().map(|r| wide(r, &[2, 3, 4])).sum();
    let [used, cleared] = rows.used_and_cleared().map(|sum| sum as i128);
    100 * e - (used - cleared) * i128::from(rows.parameters[0][0])
}

/// A remainder at a half of `below`, or now and then one or two steps beside it.
fn near_half(rng: &mut Rng, below: u128) -> u128 {
    let half = below / 2;
    if rng.one_in(3) {
        rng.pick(&[half - 2, half - 1, half + 1, half + 2])
    } else {
        half
    }
}

/// How many whole steps more, which changes the whole number below a half.
/// Often none, for the smallest halves there are.
fn more_steps(rng: &mut Rng) -> u32 {
    let any = rng.from_to(0, 99);
    rng.pick(&[0, 1, any, any])
}

/// The whole c below `below` with `times` x c = `rest` modulo `below`, and the
/// step from one such c to the next. If there is none, `rest` goes down to the
/// next that has one.
fn solve(times: u128, rest: u128, below: u128) -> (u128, u128) {
    // The greatest common divisor, and the inverse from the same steps.
    let [mut a, mut b] = [times as i128, below as i128];
    let [mut x, mut y] = [1i128, 0];
    while b != 0 {
        let quotient = a / b;
        [a, b] = [b, a - quotient * b];
        [x, y] = [y, x - quotient * y];
    }
    let step = below as i128 / a;
    let c = product_below(rest as i128 / a % step, x.rem_euclid(step), step);
    (c as u128, step as u128)
}

/// The product of two numbers below `below`, less as many `below` as are in it. In two
/// steps, since `below` may go beyond one word.
fn product_below(a: i128, b: i128, below: i128) -> i128 {
    let (high, low) = (b >> 32, b & 0xFFFF_FFFF);
    (((a * high % below) << 32) + a * low) % below
}

/// Sets a row's carbon to `digit` x 10^(6 x `power`), in one share alone.
fn set_carbon(rng: &mut Rng, row: &mut [u32; 15], share: usize, digit: u32, power: usize) {
    let (difference, fraction, others) = match power {
        0 => (1, 1, 1),
        1 => (1, 1, 1_000),
        _ => (1_000, 1_000, 1_000),
    };
    without_carbon(row);
    let period = usize::from(share == 2);
    row[if period == 0 { 1 } else { 10 }] = digit;
    row[AFTER[period]] = rng.from_to(0, 9_000);
    row[BEFORE[period]] = row[AFTER[period]] + difference;
    row[SUMMED[share]] = fraction;
    if share < 2 {
        row[SUMMED[share] + 1] = others;
        row[SUMMED[share] + 2] = others;
    } else {
        row[14] = others;
    }
}

/// Some good rows. The last three conversion rows are for [`bring_carbon`], and
/// now and then all carbon is theirs, so that small halves come too.
fn with_spare_rows(rng: &mut Rng) -> Rows {
    let counts = [3 + rng.below(MOST_ROWS - 2), rng.below(4), rng.below(4)];
    let mut rows = Rows::good(rng, counts);
    if rng.one_in(3) {
        rows.conversion.iter_mut().for_each(without_carbon);
    }
    rows
}

fn without_carbon(row: &mut [u32; 15]) {
    SUMMED.into_iter().for_each(|at| row[at] = 0);
}

/// Brings the carbon of these shares to `due` modulo `step`, by the last three
/// rows: every amount below 10^18 has three digits to the base 10^6.
fn bring_carbon(rng: &mut Rng, rows: &mut Rows, shares: &[usize], (due, step): (u128, u128)) {
    let first = rows.conversion.len() - 3;
    rows.conversion[first..].iter_mut().for_each(without_carbon);
    let there = carbon_sum(rows, shares) % step;
    let mut missing = (due + step - there) % step;
    missing += step * u128::from(more_steps(rng));
    for power in 0..3 {
        let digit = (missing / 1_000_000u128.pow(power as u32) % 1_000_000) as u32;
        // Decay has oxidised 1,000, so the lowest digit can't be decay.
        let usable = if power == 0 {
            shares.len().min(2)
        } else {
            shares.len()
        };
        let share = shares[rng.below(usable)];
        set_carbon(
            rng,
            &mut rows.conversion[first + power],
            share,
            digit,
            power,
        );
    }
}

fn co2_near_half(rng: &mut Rng) -> Rows {
    let mut rows = with_spare_rows(rng);
    let below = 3_000_000_000;
    let due = solve(11, near_half(rng, below), below);
    bring_carbon(rng, &mut rows, &[0, 1, 2], due);
    rows.cover_with_more(rng, 0);
    rows
}

/// One of CH4, CO, N2O and NOx.
fn gas_near_half(rng: &mut Rng) -> Rows {
    let mut rows = with_spare_rows(rng);
    let gas = rng.below(4);
    let parameters = &mut rows.parameters[0];
    let mut ratio = |at: usize| -> u128 {
        // Small ratios leave the most remainders within reach.
        parameters[at] = match rng.below(3) {
            0 => 1,
            1 => rng.pick(&[3, 7, 10, 12, 60, 121, 999]),
            _ => rng.from_to(1, 1_000),
        };
        parameters[at].into()
    };
    let (times, below) = match gas {
        0 => (4 * ratio(1), 3_000_000_000_000),
        1 => (7 * ratio(2), 3_000_000_000_000),
        2 => (11 * ratio(3) * ratio(4), 7_000_000_000_000_000),
        _ => (23 * ratio(3) * ratio(5), 7_000_000_000_000_000),
    };
    let due = solve(times, near_half(rng, below), below);
    bring_carbon(rng, &mut rows, &[0], due);
    rows.cover_with_more(rng, 0);
    rows
}

/// Q on a half or beside it, on both sides of zero. The last stock row is one
/// for E in single units, the last conversion row one for L.
fn q_near_half(rng: &mut Rng) -> Rows {
    let below = 3_000_000;
    let counts = [
        1 + rng.below(3),
        1 + rng.pick(&[0, 0, 0, 1, 5]),
        rng.below(6),
    ];
    let mut rows = Rows::good(rng, counts);
    if rng.one_in(2) {
        // Small values, near zero.
        rows.harvest
            .iter_mut()
            .for_each(|r| r[1..].iter_mut().for_each(|v| *v %= 10));
        rows.stock
            .iter_mut()
            .for_each(|r| r[2..].iter_mut().for_each(|v| *v %= 10));
        rows.conversion.iter_mut().for_each(|r| r[1] %= 100);
    }
    let n = rng.pick(&[1, 3, 7, 77, 500, 501, 999, 1_000]);
    rows.parameters[0][0] = n;
    let last = rows.conversion.len() - 1;
    set_carbon(rng, &mut rows.conversion[last], 1, 0, 0);
    let stock = rows.stock.len() - 1;
    rows.stock[stock][2..].copy_from_slice(&[1, 0, 1]);
    // With what the last conversion row clears at most.
    rows.cover_with_more(rng, 100);

    let (due, _) = solve(11, near_half(rng, below), below);
    let missing = (due as i128 - p(&rows)).rem_euclid(below as i128) as u32;
    // Steps of n by L until hundreds are left, which E brings.
    let fine = (0..100).find(|&l| (missing + 3_000_000 - l * n % 100).is_multiple_of(100));
    let fine = fine.unwrap_or(0);
    let left = (missing + below as u32 - fine * n % below as u32) % below as u32;
    rows.conversion[last][1] = fine;
    // A step of 3,000,000 in P is 30,000 in E.
    rows.stock[stock][3] = left / 100 + 30_000 * more_steps(rng);
    rows
}

/// Nearly all values at their limits: 32 such rows carry over 64 bits.
fn large(rng: &mut Rng) -> Rows {
    let count = rng.pick(&[1, 2, 3, 12, 31, 32, 32, 32]);
    let mut rows = Rows::good(rng, [count; 3]);
    if rng.one_in(2) {
        rows = Rows::good_in_later(rng, [count; WITH_IDS.len()]);
    }
    let share = rng.below(4);
    for row in &mut rows.conversion {
        let id = row[0];
        *row = [
            id, 1_000_000, 10_000, 0, 0, 1_000, 1_000, 0, 1_000, 1_000, 1_000_000, 10_000, 0, 0,
            1_000,
        ];
        let share = if share == 3 { rng.below(3) } else { share };
        row[SUMMED[share]] = 1_000;
        if rng.one_in(2) {
            let at = rng.pick(&[1, 2, 5, 6, 8, 9, 10, 11, 14]);
            row[at] -= rng.from_to(0, 3);
        }
        if rng.one_in(12) {
            let period = rng.below(2);
            thin(rng, row, period);
        }
    }
    for row in &mut rows.stock {
        row[2..].copy_from_slice(&[10_000, 10_000_000, 1_000]);
    }
    for row in &mut rows.harvest {
        row[1..].copy_from_slice(&[10_000_000, 10_000, 10_000_000, 10_000_000]);
    }
    for row in &mut rows.abandoned {
        let age = [10_000_000, 10_000, 1_000];
        row[1..].copy_from_slice([age; 2].as_flattened());
        let at = 1 + rng.below(6);
        row[at] -= rng.pick(&[0, 0, 1]);
    }
    burnt::enlarge(rng, &mut rows, &SAVANNAS);
    burnt::enlarge(rng, &mut rows, &CROPS);
    soil::enlarge(rng, &mut rows);
    // P as far below zero as there can be, as far above, or both sides large.
    match rng.below(3) {
        0 => rows.stock.clear(),
        1 => {
            rows.harvest.clear();
            rows.cover_with_more(rng, 0);
        }
        _ => {}
    }
    if rng.one_in(2) {
        rows.parameters[0] = [1_000; 6];
    }
    rows
}

#[cfg(test)]
#[path = "figures_tests.rs"]
mod tests;
