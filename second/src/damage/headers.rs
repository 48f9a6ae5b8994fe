//! Numbers 1 to 3: lengths, checks and headers.

use super::{block, block_count, edition, has_later_kinds};
use crate::kinds::KINDS;
use crate::make::{last_kind, renumber, repair_checks, ALL_EDITIONS};
use crate::make::{BLOCK, CHECK_AT, MOST_BLOCKS};
use crate::rng::Rng;
use std::ops::Range;

/// Breaks number 1: cut short, longer, or too many whole blocks.
pub(super) fn break_length(rng: &mut Rng, bytes: &mut Vec<u8>) -> String {
    match rng.below(4) {
        0 => bytes.truncate(BLOCK * (block_count(bytes) - 1) + rng.below(BLOCK).max(1)),
        1 => bytes.resize(bytes.len() + 1 + rng.below(BLOCK - 1), rng.byte()),
        2 => bytes.clear(),
        _ => {
            // Everything else is as it should be, header numbers included.
            let blocks = MOST_BLOCKS + 1 + rng.below(6);
            let first = bytes[..BLOCK].to_vec();
            while block_count(bytes) < blocks {
                bytes.splice(..0, first.iter().copied());
            }
            renumber(bytes);
            repair_checks(bytes);
        }
    }
    format!("1: length {}", bytes.len())
}

/// Breaks number 2 at one block.
pub(super) fn break_check(rng: &mut Rng, bytes: &mut [u8]) -> String {
    let b = rng.below(block_count(bytes));
    let block = block(bytes, b);
    let check = &mut block[CHECK_AT..];
    let how = match rng.below(7) {
        0 => {
            check[0] = check[0].wrapping_add(1);
            "low byte one up"
        }
        1 => {
            check[0] = check[0].wrapping_sub(1);
            "low byte one down"
        }
        2 => {
            check[3] = rng.nonzero_byte();
            "high byte set"
        }
        3 => {
            check[rng.below(4)] ^= 1 << rng.below(8);
            "one bit"
        }
        4 => {
            let old = u32::from_le_bytes([check[0], check[1], check[2], check[3]]);
            // The plain sum, as with weights from 0, is the likely slip.
            let plain: u32 = block[..CHECK_AT].iter().map(|&byte| u32::from(byte)).sum();
            block[CHECK_AT..].copy_from_slice(&old.wrapping_sub(plain).to_le_bytes());
            "weights from 0"
        }
        5 => {
            let at = rng.below(CHECK_AT);
            block[at] ^= rng.nonzero_byte();
            "a byte changed"
        }
        _ => {
            // Two neighbours change places: a plain sum wouldn't see it.
            let at = (0..CHECK_AT - 1).find(|&at| block[at] != block[at + 1]);
            at.into_iter().for_each(|at| block.swap(at, at + 1));
            "neighbours swapped"
        }
    };
    format!("2: {how} in block {b}")
}

/// Breaks number 3, at one block or by the editions of several.
pub(super) fn break_header(rng: &mut Rng, bytes: &mut [u8]) -> String {
    if let Some(how) = rng.one_in(3).then(|| break_edition(rng, bytes)).flatten() {
        return format!("3: {how}");
    }
    let b = rng.below(block_count(bytes));
    let last = last_kind(edition(bytes));
    let block = block(bytes, b);
    let at = rng.pick(&[0, 0, 2, 3, 4, 5]);
    block[at] = match at {
        // In edition 1 each later kind too.
        0 => match rng.below(4) {
            0 => rng.pick(&[0, 128, 255]),
            // The first that it doesn't have, or the last that another edition has.
            1 => rng.pick(&[last + 1, (KINDS.len() as u8).max(last + 1)]),
            _ => last + 1 + rng.below(KINDS.len() + 2 - usize::from(last)) as u8,
        },
        _ => match rng.below(3) {
            0 => block[at].wrapping_add(1),
            1 => block[at].wrapping_sub(1),
            _ => block[at] ^ rng.nonzero_byte(),
        },
    };
    format!("3: offset {at} of block {b} set to {}", block[at])
}

/// An edition that there isn't. Some look like 1, 2 or 3 to a reader of one byte,
/// or of the bytes in the other order.
fn unknown_edition(rng: &mut Rng) -> u16 {
    let any = rng.from_to(4, 65_535) as u16;
    let likely = [
        0, 4, 5, 255, 256, 257, 258, 259, 512, 768, 32_769, 32_770, 32_771, 65_535,
    ];
    if rng.one_in(12) {
        any
    } else {
        rng.pick(&likely)
    }
}

/// Breaks number 3 by editions alone; nothing where the way that was drawn needs
/// what this return doesn't have.
fn break_edition(rng: &mut Rng, bytes: &mut [u8]) -> Option<String> {
    let blocks = block_count(bytes);
    let b = rng.below(blocks);
    let others = ALL_EDITIONS.into_iter().filter(|&e| e != edition(bytes));
    let other = rng.pick(&others.collect::<Vec<_>>());
    let (which, new) = match rng.below(5) {
        0 => (b..b + 1, unknown_edition(rng)),
        1 => (0..blocks, unknown_edition(rng)),
        // "an edition unlike block 0's", in one block or from one on
        2 if blocks > 1 => (b..b + 1, other),
        3 if blocks > 1 => (b.max(1)..blocks, other),
        // "a kind above 4 in edition 1"
        4 if has_later_kinds(bytes) => (0..blocks, 1),
        _ => return None,
    };
    set_edition(bytes, which.clone(), new);
    Some(format!("edition {new} in blocks {which:?}"))
}

fn set_edition(bytes: &mut [u8], which: Range<usize>, edition: u16) {
    for b in which {
        block(bytes, b)[6..8].copy_from_slice(&edition.to_le_bytes());
    }
}
