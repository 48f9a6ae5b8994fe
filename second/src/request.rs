//! A few inputs that meet all that the requests say of refusals, for a comparison
//! that is too slow for the whole sweeps.

use crate::case::Case;
use crate::damage::block;
use crate::families::Families;
use crate::kinds::KINDS;
use crate::make::{fields, limited, seal, Rows, BLOCK, FIRST_LIMITED};
use crate::make::{FIRST_WITH_IDS, LATER, LATER_EDITIONS, LIMITED, WITH_IDS};
use crate::order_sweeps::{crowds, editions, short_orders};
use crate::order_sweeps::{ALL_CROWDS, SHORT_EDITIONS, SHORT_ORDERS};
use crate::rng::Rng;
use crate::spoil::{any_limited_of, spoil_id, spoil_limit, ABOVES, BAD_IDS};
use crate::{clearings, plots, trees};

static FAMILIES: Families<Case> = Families(&[
    (SHORT_ORDERS, short_orders),
    (SHORT_EDITIONS, editions),
    (ALL_CROWDS, crowds),
    (WAYS * TRIES * LATER, later),
    (LIMITED - FIRST_LIMITED, limits),
    (CLEARINGS, |_, rng| clearings::case(rng)),
    (PLOTS, |_, rng| plots::case(rng)),
    (GROVES, |_, rng| trees::case(rng)),
]);

/// How many are made for the sake of number 12, of 13, and of 14.
const CLEARINGS: usize = 60;
const PLOTS: usize = 90;
const GROVES: usize = 90;

/// Ways in which rows of a kind above 4 are at fault, and how often each is drawn.
const WAYS: usize = 6;
const TRIES: usize = 6;

/// How many there are.
pub fn size() -> usize {
    FAMILIES.size()
}

/// The `index`-th of them.
pub fn case(index: usize, rng: &mut Rng) -> Case {
    FAMILIES.case(index, rng)
}

/// A kind above 4 at fault with an id, a field, a byte behind the fields, a count,
/// the count of the third block, or by standing behind a higher one.
fn later(index: usize, rng: &mut Rng) -> Case {
    let (way, nth) = (index % WAYS, index / WAYS % LATER);
    let edition = LATER_EDITIONS[index / WAYS / LATER % 2];
    let kind = WITH_IDS[FIRST_WITH_IDS + nth];
    let row = if way == 4 { 24 } else { 1 + rng.below(31) };
    let mut counts = [0, 1, 0].to_vec();
    counts.extend((0..LATER).map(|_| if way == 5 { 3 } else { rng.pick(&[0, 3]) }));
    counts[FIRST_WITH_IDS + nth] = row + 1 + rng.below(32 - row);
    let mut rows = Rows::good_in(rng, edition, &counts);
    match way {
        0 => {
            let bad = rng.pick(&BAD_IDS);
            spoil_id(&mut rows, kind, row, bad);
        }
        1 => {
            let at = (kind, row, any_limited_of(rng, kind));
            let above = rng.pick(&ABOVES);
            spoil_limit(rng, &mut rows, at, above);
        }
        _ => {}
    }
    let mut bytes = rows.to_bytes();
    let kinds: Vec<u8> = bytes.chunks(BLOCK).map(|block| block[0]).collect();
    let first = kinds.partition_point(|&other| other < kind);
    let at = block(&mut bytes, first + row / 12);
    match way {
        2 => {
            let end = KINDS[usize::from(kind) - 1].fields_end();
            at[8 + 40 * (row % 12) + end + rng.below(40 - end)] = rng.nonzero_byte();
        }
        3 => at[1] = rng.pick(&[0, 13, 255]),
        4 => at[1] = 9 + rng.below(4) as u8,
        5 => {
            // The first of all kinds above 4 goes behind the others.
            let later = kinds.partition_point(|&other| other <= 4);
            bytes[BLOCK * later..].rotate_left(BLOCK);
        }
        _ => {}
    }
    seal(&mut bytes);
    Case {
        how: format!("kind {kind} at fault, way {way} at row {row}, edition {edition}"),
        bytes,
    }
}

/// Each field of the kinds above 4 once above its limit, or at it where its bytes hold no
/// more.
fn limits(index: usize, rng: &mut Rng) -> Case {
    let (kind, field) = limited(FIRST_LIMITED + index);
    let mut rows = Rows::good_later(rng, 1);
    let (row, above) = (rng.below(rows.len(kind)), rng.pick(&ABOVES));
    if fields(kind)[field].can_exceed() {
        spoil_limit(rng, &mut rows, (kind, row, field), above);
    }
    Case {
        how: format!("kind {kind} row {row} field {field}, {above:?}"),
        bytes: rows.to_bytes(),
    }
}

#[cfg(test)]
mod tests {
    use super::*;
    use crate::input::Input;
    use crate::judge::judge;
    use crate::sentences::OF_RETURNS;

    /// The few inputs that stand for the requests meet all of their sentences.
    #[test]
    fn the_requests_are_met() {
        let mut met = vec![0; OF_RETURNS.names().len()];
        for index in 0..size() {
            let case = case(index, &mut Rng::for_input(114, index as u64));
            let found = case.met(judge(&case.bytes).answer());
            found.into_iter().for_each(|i| met[i] += 1);
        }
        assert!(!met.contains(&0), "{:?} {met:?}", OF_RETURNS.names());
    }

    /// Two numbers of soils fill their bytes.
    #[test]
    fn each_limit_is_crossed() {
        for index in 0..LIMITED - FIRST_LIMITED {
            let case = limits(index, &mut Rng::for_input(116, index as u64));
            let (kind, field) = limited(FIRST_LIMITED + index);
            let due = if kind == 7 && field < 3 { 0 } else { 6 };
            assert!(kind > 4, "{}", case.how);
            assert_eq!(judge(&case.bytes).answer() / 1000, due, "{}", case.how);
        }
    }

    #[test]
    fn later_kinds_are_refused_by_their_way() {
        for index in 0..100 * WAYS * LATER {
            let case = later(index, &mut Rng::for_input(115, index as u64));
            let due = [5, 6, 4, 4, 4, 4][index % WAYS];
            assert_eq!(judge(&case.bytes).answer() / 1000, due, "{}", case.how);
        }
    }
}
