//! Refused returns with several clashes at one place, so that the first of them
//! has to be named.

use crate::case::Case;
use crate::damage::{block, block_count};
use crate::make::{fields, last_kind, repair_checks, seal, zero_areas, Rows, BLOCK, MOST_BLOCKS};
use crate::rng::Rng;
use crate::spoil::{any_limited, any_limited_of, spoil_limit, ABOVES};

/// A random return of this kind.
pub fn case(rng: &mut Rng) -> Case {
    match rng.below(8) {
        0 | 1 => several_fields(rng),
        2 => several_header_values(rng),
        3 | 4 => several_strays(rng),
        _ => any_layout(rng),
    }
}

/// A row with two fields and more above their limits, and now and then another
/// row behind it.
fn several_fields(rng: &mut Rng) -> Case {
    let mut rows = Rows::good_from(rng, 2);
    let (kind, row, _) = any_limited(rng, &rows);
    let times = 2 + rng.below(fields(kind).len() - 1);
    for _ in 0..times {
        let (field, way) = (any_limited_of(rng, kind), rng.pick(&ABOVES));
        spoil_limit(rng, &mut rows, (kind, row, field), way);
    }
    if rng.one_in(3) {
        let (at, way) = (any_limited(rng, &rows), rng.pick(&ABOVES));
        spoil_limit(rng, &mut rows, at, way);
    }
    Case {
        how: format!("fields of kind {kind} row {row}, {times} times"),
        bytes: rows.to_bytes(),
    }
}

/// A block with several wrong values in its header, small and large.
fn several_header_values(rng: &mut Rng) -> Case {
    let mut bytes = Rows::any_good(rng).to_bytes();
    let b = rng.below(block_count(&bytes));
    let times = 2 + rng.below(5);
    for _ in 0..times {
        let value = rng.pick(&[0, 1, 2, 3, 4, 9, 10, 99, 100, 255]);
        block(&mut bytes, b)[rng.below(8)] = value;
    }
    repair_checks(&mut bytes);
    Case {
        how: format!("header of block {b}, {times} times"),
        bytes,
    }
}

/// Several bytes where zero is due, in one block or in any.
fn several_strays(rng: &mut Rng) -> Case {
    let mut bytes = Rows::any_good(rng).to_bytes();
    let blocks = block_count(&bytes);
    let (b, alone) = (rng.below(blocks), rng.one_in(2));
    let times = 2 + rng.below(5);
    for _ in 0..times {
        let at = if alone { b } else { rng.below(blocks) };
        let block = block(&mut bytes, at);
        let areas = zero_areas(block[0], usize::from(block[1]));
        let area = &areas[rng.below(areas.len())];
        block[area.start + rng.below(area.len())] = rng.nonzero_byte();
    }
    repair_checks(&mut bytes);
    Case {
        how: format!("{times} bytes where zero is due, from block {b} on"),
        bytes,
    }
}

/// Blocks of any kinds, mostly rising, with any counts: all rules on them may be
/// broken, and several by one block. Their records are empty, but for a byte now
/// and then.
fn any_layout(rng: &mut Rng) -> Case {
    let edition = rng.pick(&[1, 2, 3]);
    // Now and then the kinds below the parameters alone, of which none may be last.
    let last = match rng.below(4) {
        0 => 3,
        _ => usize::from(last_kind(edition.into())),
    };
    let mut kinds = Vec::new();
    for _ in 0..1 + rng.below(4) {
        let kind = 1 + rng.below(last) as u8;
        let times = rng.pick(&[1, 1, 2, 3, 3, 4]);
        kinds.extend(std::iter::repeat_n(kind, times));
    }
    if !rng.one_in(4) {
        kinds.push(4);
        kinds.sort_unstable();
        kinds.dedup_by(|a, b| [*a, *b] == [4, 4]);
    }
    kinds.truncate(MOST_BLOCKS);
    // Mostly counts that are good where the kind goes on.
    let good = rng.one_in(2);
    let mut bytes = vec![0; BLOCK * kinds.len()];
    for (b, block) in bytes.chunks_mut(BLOCK).enumerate() {
        let goes_on = kinds.get(b + 1) == Some(&kinds[b]);
        let any = rng.pick(&[0, 1, 1, 8, 9, 11, 12, 12, 13, 255]);
        block[0] = kinds[b];
        block[1] = match kinds[b] {
            _ if !good => any,
            4 => 1,
            _ if goes_on => 12,
            _ => rng.pick(&[1, 8, 9, 12]),
        };
        block[6] = edition;
        if rng.one_in(12) {
            block[48 + rng.below(460)] = rng.nonzero_byte();
        }
    }
    seal(&mut bytes);
    Case {
        how: format!("kinds {kinds:?} in edition {edition}, counts good {good}"),
        bytes,
    }
}
