//! Inputs made one after the other, each place and each value in its turn.
//! Only what a sweep doesn't name is left to the generator.

use crate::case::Case;
use crate::damage::{block, block_count};
use crate::families::Families;
use crate::make::{drawn_counts, fields, limited, place_of, repair_checks, seal};
use crate::make::{zero_areas, RowCounts, Rows, BLOCK, CHECK_AT, FIRST_WITH_IDS};
use crate::make::{LIMITED, MOST_BLOCKS, MOST_ROWS, SUMMED, WITH_IDS};
use crate::order_sweeps::{crowds, editions, orders, ALL_CROWDS, EDITIONS, ORDERS};
use crate::rng::Rng;
use crate::soil_sweeps::{each, pairs, sums, with_13, EACH, PAIRS, SUMS, WITH_13};
use crate::spoil::{spoil_id, spoil_limit, ABOVES, BAD_IDS};
use crate::tree_sweeps;
use crate::wood_sweeps::{alone, balances, with_12, ALONE, BALANCES, WITH_12};

/// Some more than the most blocks have.
const LENGTHS: usize = BLOCK * MOST_BLOCKS + 81;
const FILLINGS: usize = 5;
/// The kinds with ids with counts 1 to 12, and the parameters.
const FORMS: usize = WITH_IDS.len() * 12 + 1;
/// The most zero areas a block can have, two for each used record and the
/// twenty bytes; a form with fewer starts again.
const AREAS: usize = 2 * 12 + 1;
/// How often each crowd of blocks is drawn.
const CROWD_TRIES: usize = 8;
/// Ways above a limit, and at the limit.
const WAYS: usize = ABOVES.len() + 1;

static FAMILIES: Families<Case> = Families(&[
    (LENGTHS * FILLINGS, lengths),
    (FORMS * CHECK_AT, every_byte),
    (FORMS * AREAS * 2, zero_ends),
    (8 * 256, header_bytes),
    (4 * 256, check_bytes),
    ((MOST_ROWS + 5) * WITH_IDS.len() * 2, counts),
    (MOST_ROWS * LIMITED * WAYS, limits),
    ((MOST_ROWS - 1) * WITH_IDS.len() * BAD_IDS.len(), ids),
    (2 * ORDERS, orders),
    (EDITIONS, editions),
    (ALL_CROWDS * CROWD_TRIES, crowds),
    (BALANCES, balances),
    (ALONE, alone),
    (WITH_12, with_12),
    (SUMS, sums),
    (EACH, each),
    (PAIRS, pairs),
    (WITH_13, with_13),
    (tree_sweeps::EACH, tree_sweeps::each),
    (tree_sweeps::CODES, tree_sweeps::codes),
    (tree_sweeps::HOW_MANY, tree_sweeps::how_many),
    (tree_sweeps::PAIRS, tree_sweeps::pairs),
    (tree_sweeps::WITH_14, tree_sweeps::with_14),
]);

/// How many inputs the sweeps have together.
pub fn size() -> usize {
    FAMILIES.size()
}

/// The `index`-th input of the sweeps.
pub fn case(index: usize, rng: &mut Rng) -> Case {
    FAMILIES.case(index, rng)
}

/// All blocks of edition 1, with none, some or all of the kinds of the later editions.
fn full(rng: &mut Rng) -> Vec<u8> {
    let mut counts = [MOST_ROWS; WITH_IDS.len()];
    let later = &mut counts[FIRST_WITH_IDS..];
    match rng.below(5) {
        0 => later.fill(0),
        1 | 2 => later.fill_with(|| rng.pick(&[0, MOST_ROWS])),
        _ => {}
    }
    Rows::good_in_any(rng, counts).to_bytes()
}

/// Every length from 0 to some more than the most blocks.
fn lengths(index: usize, rng: &mut Rng) -> Case {
    let length = index / FILLINGS;
    let (how, bytes) = match index % FILLINGS {
        0 => ("zeros", vec![0; length]),
        1 => {
            let mut bytes = vec![0; length];
            rng.fill(&mut bytes);
            ("random bytes", bytes)
        }
        2 => {
            let mut bytes = full(rng);
            bytes.resize(length, rng.byte());
            ("front of a good return", bytes)
        }
        3 => {
            // As many whole good blocks as fit, one of them parameters.
            let blocks = (length / BLOCK).min(MOST_BLOCKS);
            let rows = blocks.saturating_sub(1) * 12;
            let counts = std::array::from_fn(|nth| rows.saturating_sub(36 * nth).min(32));
            let mut bytes = Rows::good_in_any(rng, counts).to_bytes();
            let kept = bytes.len().min(length);
            bytes.resize(length, 0);
            rng.fill(&mut bytes[kept..]);
            ("a good return and more", bytes)
        }
        _ => {
            let mut bytes = full(rng);
            bytes.resize(length, 0);
            seal(&mut bytes);
            (
                "front of a good return, numbers and checks made right",
                bytes,
            )
        }
    };
    Case {
        how: format!("length {length}, {how}"),
        bytes,
    }
}

/// A good return that holds a block of one form, and where that block stands.
fn formed(rng: &mut Rng, form: usize) -> (Vec<u8>, usize) {
    let mut counts = drawn_counts(rng, |rng| rng.pick(&[0, 0, 1, 2, 13]));
    if form < FORMS - 1 {
        counts[form / 12] = 1 + form % 12;
    }
    let bytes = Rows::good_in_any(rng, counts).to_bytes();
    let kind = WITH_IDS.get(form / 12).copied().unwrap_or(4);
    let place = (0..block_count(&bytes)).find(|&b| bytes[BLOCK * b] == kind);
    (bytes, place.expect("a block of this kind"))
}

/// Every byte of every form of block changed, with the check made right.
fn every_byte(index: usize, rng: &mut Rng) -> Case {
    let (form, at) = (index / CHECK_AT, index % CHECK_AT);
    let (mut bytes, b) = formed(rng, form);
    block(&mut bytes, b)[at] ^= rng.nonzero_byte();
    repair_checks(&mut bytes);
    Case {
        how: format!("form {form}, byte {at} of block {b} changed"),
        bytes,
    }
}

/// The first and the last byte of every zero area of every form of block.
fn zero_ends(index: usize, rng: &mut Rng) -> Case {
    let (form, area, last) = (index / 2 / AREAS, index / 2 % AREAS, index % 2 == 1);
    let (mut bytes, b) = formed(rng, form);
    let block = block(&mut bytes, b);
    let areas = zero_areas(block[0], usize::from(block[1]));
    let area = &areas[area % areas.len()];
    let at = if last { area.end - 1 } else { area.start };
    block[at] = rng.nonzero_byte();
    repair_checks(&mut bytes);
    Case {
        how: format!("form {form}, zero at {at} of block {b}"),
        bytes,
    }
}

/// Every value of every header byte, in a block of a good return.
fn header_bytes(index: usize, rng: &mut Rng) -> Case {
    let (at, value) = (index / 256, (index % 256) as u8);
    let mut bytes = Rows::any_good(rng).to_bytes();
    let b = rng.below(block_count(&bytes));
    block(&mut bytes, b)[at] = value;
    repair_checks(&mut bytes);
    Case {
        how: format!("header byte {at} of block {b} set to {value}"),
        bytes,
    }
}

/// Every value of every byte of a check.
fn check_bytes(index: usize, rng: &mut Rng) -> Case {
    let (at, value) = (CHECK_AT + index / 256, (index % 256) as u8);
    let mut bytes = Rows::any_good(rng).to_bytes();
    let b = rng.below(block_count(&bytes));
    block(&mut bytes, b)[at] = value;
    Case {
        how: format!("check byte {at} of block {b} set to {value}"),
        bytes,
    }
}

fn any_counts(rng: &mut Rng) -> RowCounts {
    drawn_counts(rng, |rng| rng.below(MOST_ROWS + 1))
}

fn few_counts(rng: &mut Rng) -> RowCounts {
    drawn_counts(rng, |rng| rng.below(4))
}

/// Every count of each kind, up to 36 rows: above 32 they are one block's
/// fault, and good but for their number. The others none, or any.
fn counts(index: usize, rng: &mut Rng) -> Case {
    let (turn, alone) = (index / 2, index.is_multiple_of(2));
    let (count, place) = (turn / WITH_IDS.len(), turn % WITH_IDS.len());
    let mut counts = RowCounts::default();
    if !alone {
        counts = any_counts(rng);
    }
    counts[place] = count;
    let bytes = Rows::good_in_any(rng, counts).to_bytes();
    Case {
        how: format!("row counts {counts:?}"),
        bytes,
    }
}

/// Every field of every row above its limit in every way, and at its limit.
fn limits(index: usize, rng: &mut Rng) -> Case {
    let (way, rest) = (index % WAYS, index / WAYS);
    let (row, field) = (rest % MOST_ROWS, rest / MOST_ROWS);
    let (kind, field) = limited(field);
    // There is one row of parameters.
    let row = if kind == 4 { 0 } else { row };
    let mut counts = few_counts(rng);
    if let Some(place) = place_of(kind) {
        counts[place] = MOST_ROWS;
    }
    let mut rows = Rows::good_in_any(rng, counts);
    if way < ABOVES.len() && fields(kind)[field].can_exceed() {
        spoil_limit(rng, &mut rows, (kind, row, field), ABOVES[way]);
    } else {
        at_limit(&mut rows, kind, row, field);
        rows.make_good_again(rng, kind, field);
    }
    let how = format!("kind {kind} row {row} field {field} limit way {way}");
    Case {
        how,
        bytes: rows.to_bytes(),
    }
}

/// Sets a field to its limit and keeps the row good.
fn at_limit(rows: &mut Rows, kind: u8, row: usize, field: usize) {
    let limit = fields(kind)[field].most;
    let row = rows.row(kind, row);
    if kind == 1 && SUMMED.contains(&field) {
        SUMMED.into_iter().for_each(|summed| row[summed] = 0);
    }
    row[field] = limit;
}

/// Every row with an id not above the one before, in every way; the rows at 12
/// and 24 have it before them in another block.
fn ids(index: usize, rng: &mut Rng) -> Case {
    let (way, rest) = (BAD_IDS[index % BAD_IDS.len()], index / BAD_IDS.len());
    let (place, row) = (rest % WITH_IDS.len(), 1 + rest / WITH_IDS.len());
    let kind = WITH_IDS[place];
    let mut counts = few_counts(rng);
    counts[place] = row + 1 + rng.below(MOST_ROWS - row);
    let mut rows = Rows::good_in_any(rng, counts);
    spoil_id(&mut rows, kind, row, way);
    let bytes = rows.to_bytes();
    Case {
        how: format!("id {way:?} at kind {kind} row {row}"),
        bytes,
    }
}

#[cfg(test)]
mod tests {
    use super::*;
    use crate::judge::{judge, Refusal, Verdict};

    #[test]
    fn every_index_makes_an_input() {
        for index in 0..size() {
            case(index, &mut Rng::for_input(1, index as u64));
        }
    }

    #[test]
    fn limits_are_met_and_broken() {
        for index in 0..MOST_ROWS * LIMITED * WAYS {
            let verdict = judge(&limits(index, &mut Rng::for_input(2, index as u64)).bytes);
            let (kind, field) = limited(index / WAYS / MOST_ROWS);
            // The last unit code is one that edition 3 doesn't have.
            if let (2, 1, Verdict::Refused(Refusal { number: 14, .. })) = (kind, field, verdict) {
                assert_eq!(index % WAYS, ABOVES.len());
            } else if index % WAYS == ABOVES.len() || !fields(kind)[field].can_exceed() {
                assert!(
                    matches!(verdict, Verdict::Accepted(_)),
                    "{index}: {verdict:?}"
                );
            } else {
                let refused = matches!(verdict, Verdict::Refused(Refusal { number: 6, .. }));
                assert!(refused, "{index}: {verdict:?}");
            }
        }
    }

    #[test]
    fn zero_ends_are_all_refused() {
        for index in 0..FORMS * AREAS * 2 {
            let verdict = judge(&zero_ends(index, &mut Rng::for_input(3, index as u64)).bytes);
            let refused = matches!(verdict, Verdict::Refused(Refusal { number: 4, .. }));
            assert!(refused, "{index}: {verdict:?}");
        }
    }

    #[test]
    fn ids_are_refused_at_their_row() {
        for index in 0..(MOST_ROWS - 1) * WITH_IDS.len() * BAD_IDS.len() {
            let verdict = judge(&ids(index, &mut Rng::for_input(4, index as u64)).bytes);
            let refused = matches!(verdict, Verdict::Refused(Refusal { number: 5, .. }));
            assert!(refused, "{index}: {verdict:?}");
        }
    }
}
