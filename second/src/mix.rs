//! Inputs drawn at random: good returns, each number broken alone, in pairs
//! and several times, wood that is cleared and used nearly alike, soils that are nearly
//! even, scattered trees, and random blocks.

use crate::case::Case;
use crate::damage::{block, block_count, break_number, random_blocks};
use crate::make::{drawn_counts, repair_checks, seal, Rows, BLOCK};
use crate::rng::Rng;
use crate::spoil::{spoil, to_be_spoiled, SPOILED};
use crate::{clearings, plots, trees};

type Weighted = (usize, fn(&mut Rng) -> Case);

/// How often each way is taken, out of the sum of all.
const WEIGHTS: [Weighted; 10] = [
    (19, good),
    (36, alone),
    (20, two_numbers),
    (12, one_number_often),
    (8, clearings::case),
    (6, plots::case),
    (6, trees::case),
    (6, random),
    (5, changed_bytes),
    (3, reordered),
];

/// A random input.
pub fn case(rng: &mut Rng) -> Case {
    let mut drawn = rng.below(WEIGHTS.iter().map(|(weight, _)| weight).sum());
    for (weight, make) in WEIGHTS {
        if drawn < weight {
            return make(rng);
        }
        drawn -= weight;
    }
    unreachable!("the number drawn is below the sum of the weights")
}

fn good(rng: &mut Rng) -> Case {
    let rows = Rows::any_good(rng);
    let how = format!("good, edition {}, {:?} rows", rows.edition, rows.counts());
    Case {
        how,
        bytes: rows.to_bytes(),
    }
}

/// Breaks these numbers, the ones of the rows first, so that no later damage
/// is made good again by the repair after an earlier one.
pub fn broken(rng: &mut Rng, numbers: &[u32]) -> Case {
    let mut rows = to_be_spoiled(rng, numbers);
    let mut how = String::from("broken");
    let times = |number: u32| numbers.iter().filter(move |&&other| other == number);
    for number in SPOILED.into_iter().flat_map(times) {
        how += &format!(", {}", spoil(rng, &mut rows, *number));
    }
    let mut bytes = rows.to_bytes();
    for number in (1..5).rev().flat_map(times) {
        how += &format!(", {}", break_number(rng, &mut bytes, *number));
    }
    Case { how, bytes }
}

fn alone(rng: &mut Rng) -> Case {
    let number = rng.pick(&[1, 2, 2, 3, 3, 4, 4, 4, 5, 5, 6, 6, 7, 7, 7, 12, 13, 14]);
    if number == 4 && rng.one_in(3) {
        // Small returns, where a block more or less has room.
        let counts = drawn_counts(rng, |rng| rng.pick(&[0, 1, 5, 12, 13]));
        let mut bytes = Rows::good_in_any(rng, counts).to_bytes();
        let how = break_number(rng, &mut bytes, 4);
        return Case {
            how: format!("small, {how}"),
            bytes,
        };
    }
    if number == 4 && rng.one_in(6) {
        // A third block of every kind, of which some have a count above 8.
        let mut bytes = Rows::good_later(rng, 25).to_bytes();
        let how = break_number(rng, &mut bytes, 4);
        return Case {
            how: format!("full, {how}"),
            bytes,
        };
    }
    broken(rng, &[number])
}

/// The numbers that returns are refused by, in the order in which they are tried.
const NUMBERS: [u32; 10] = [1, 2, 3, 4, 5, 6, 14, 7, 12, 13];

/// Two different numbers at places of their own: the one that is tried first shows, from
/// the lower place or from the higher.
fn two_numbers(rng: &mut Rng) -> Case {
    let first = match rng.below(20) {
        0 => 0,
        _ => 1 + rng.below(NUMBERS.len() - 2),
    };
    let later = first + 1 + rng.below(NUMBERS.len() - first - 1);
    broken(rng, &[NUMBERS[first], NUMBERS[later]])
}

/// One number at several places, so that the lowest shows.
fn one_number_often(rng: &mut Rng) -> Case {
    let number = rng.pick(&[2, 3, 4, 5, 6, 7, 14]);
    let times = 2 + rng.below(4);
    broken(rng, &vec![number; times])
}

fn random(rng: &mut Rng) -> Case {
    let depth = rng.below(6);
    Case {
        how: format!("random blocks, depth {depth}"),
        bytes: random_blocks(rng, depth),
    }
}

fn changed_bytes(rng: &mut Rng) -> Case {
    let mut bytes = Rows::any_good(rng).to_bytes();
    let changes = 1 + rng.below(3);
    for _ in 0..changes {
        let at = rng.below(bytes.len());
        bytes[at] ^= rng.nonzero_byte();
    }
    let repaired = !rng.one_in(8);
    if repaired {
        repair_checks(&mut bytes);
    }
    Case {
        how: format!("{changes} bytes changed, repaired {repaired}"),
        bytes,
    }
}

/// Blocks of a good return dropped, doubled and put in another order. Numbers
/// and checks made right, or as they were.
fn reordered(rng: &mut Rng) -> Case {
    let mut from = Rows::any_good(rng).to_bytes();
    let blocks = block_count(&from);
    let mut order: Vec<usize> = (0..blocks).collect();
    match rng.below(3) {
        0 => drop(order.remove(rng.below(blocks))),
        1 => order.insert(rng.below(blocks), rng.below(blocks)),
        _ => order.swap(rng.below(blocks), rng.below(blocks)),
    }
    let mut bytes = Vec::with_capacity(BLOCK * order.len());
    for &b in &order {
        bytes.extend_from_slice(block(&mut from, b));
    }
    let sealed = !rng.one_in(4);
    if sealed {
        seal(&mut bytes);
    }
    Case {
        how: format!("blocks {order:?} of {blocks}, made right {sealed}"),
        bytes,
    }
}

#[cfg(test)]
mod tests {
    use super::*;
    use crate::judge::{judge, Refusal, Verdict};

    /// With two numbers broken the one that is tried first is given, and often enough
    /// from a higher place than a judge that tries the other first would say.
    #[test]
    fn the_first_number_shows() {
        let mut rng = Rng::new(31);
        let of_rows = &NUMBERS[4..];
        for (nth, &first) in of_rows.iter().enumerate() {
            for &later in &of_rows[nth + 1..] {
                let mut own = 0;
                for _ in 0..300 {
                    let bytes = broken(&mut rng, &[first, later]).bytes;
                    if let Verdict::Refused(Refusal { number, .. }) = judge(&bytes) {
                        own += u32::from(number == first);
                    }
                }
                assert!(own > 250, "{first} and {later}: {own}");
            }
        }
    }

    #[test]
    fn every_answer_comes_often() {
        let mut given = [0; 15];
        for index in 0..20_000 {
            match judge(&case(&mut Rng::for_input(32, index)).bytes) {
                Verdict::Accepted(_) => given[0] += 1,
                Verdict::Refused(refusal) => given[refusal.number as usize] += 1,
            }
        }
        let often = |&number: &u32| given[number as usize] > 400;
        assert!(given[0] > 4_000 && NUMBERS.iter().all(often), "{given:?}");
        assert_eq!(given[8], 0, "8 is never given again");
    }
}
