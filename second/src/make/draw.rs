//! Single values, ids and rows, drawn at random within their limits.

use super::fields;
use crate::rng::Rng;

/// A value from 0 to `limit`, both ends favoured.
pub(super) fn good_value(rng: &mut Rng, limit: u32) -> u32 {
    match rng.below(6) {
        0 => 0,
        1 => limit,
        2 => limit.min(1),
        3 => limit.saturating_sub(1),
        _ => rng.from_to(0, limit),
    }
}

/// Rising ids: from 0, up to 2^32 - 1, over the middle, or far apart.
pub fn good_ids(rng: &mut Rng, count: usize) -> Vec<u32> {
    let length = count as u32;
    let run = |from: u32| (0..length).map(|i| from + i).collect();
    match rng.below(6) {
        0 => run(0),
        1 => run(u32::MAX - length.max(1) + 1),
        2 => run(0x8000_0000 - length / 2),
        3 => run(rng.from_to(0, 0xFFFF_0000)),
        style => {
            // Sorted without equals. One style pins both ends of the range.
            let mut ids: Vec<u32> = (0..count).map(|_| rng.word()).collect();
            if style == 4 {
                let ends = [0, u32::MAX];
                ids.iter_mut().zip(ends).for_each(|(id, end)| *id = end);
            }
            ids.sort_unstable();
            ids.dedup();
            if ids.len() < count {
                return run(7);
            }
            ids
        }
    }
}

/// A good row of any kind by its fields; an id, where the kind has one, is given.
pub(super) fn draw_row(rng: &mut Rng, kind: u8, row: &mut [u32]) {
    for (value, field) in row.iter_mut().zip(fields(kind)) {
        if field.most < u32::MAX {
            *value = good_value(rng, field.most);
        }
    }
}
