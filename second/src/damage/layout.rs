//! Number 4: the order and number of blocks, their counts and their zeros.

use super::{block, block_count, edition, kind, parameters_at, used};
use crate::make::{last_kind, renumber, zero_areas};
use crate::make::{BLOCK, FIRST_FULL, MOST_BLOCKS, WITH_IDS};
use crate::rng::Rng;

/// A non-zero byte where zero is due, in a block whose count is good.
fn break_zero(rng: &mut Rng, bytes: &mut [u8]) -> String {
    let b = rng.below(block_count(bytes));
    let areas = zero_areas(kind(bytes, b), used(bytes, b));
    let area = rng.pick(&areas.iter().map(|a| (a.start, a.end)).collect::<Vec<_>>());
    let at = match rng.below(3) {
        0 => area.0,
        1 => area.1 - 1,
        _ => area.0 + rng.below(area.1 - area.0),
    };
    block(bytes, b)[at] = rng.nonzero_byte();
    format!("4: zero at {at} of block {b}")
}

/// Breaks number 4 in one of its ways; a way that this return has no room for
/// becomes a non-zero byte where zero is due.
pub(super) fn break_layout(rng: &mut Rng, bytes: &mut Vec<u8>) -> String {
    let done = match rng.below(17) {
        0 => swap_blocks(rng, bytes),
        1 => double_block(rng, bytes),
        2 | 15 => drop_parameters(rng, bytes),
        3 => after_parameters(rng, bytes),
        4 => shorten_full_block(rng, bytes),
        5 | 13 | 16 => overfull_third(rng, bytes),
        6 => empty_block(rng, bytes),
        7 => {
            let b = rng.below(block_count(bytes));
            let old = block(bytes, b)[1];
            let one_more = old.wrapping_add(1);
            let new = rng.pick(&[0, 13, 14, 128, 255, old.wrapping_sub(1), one_more]);
            block(bytes, b)[1] = new;
            Some(format!("count {old} to {new} in block {b}"))
        }
        8 => parameters_at(bytes).map(|p| {
            // Empty records may follow the only parameter record.
            block(bytes, p)[1] = rng.pick(&[0, 2, 3, 12, 13, 255]);
            "parameter count".to_string()
        }),
        9 => parameters_later(rng, bytes),
        10 => crowd_first_edition(rng, bytes),
        11 => later_first(rng, bytes),
        12 => later_count(rng, bytes),
        _ => None,
    };
    match done {
        Some(how) => {
            renumber(bytes);
            format!("4: {how}")
        }
        None => break_zero(rng, bytes),
    }
}

fn swap_blocks(rng: &mut Rng, bytes: &mut [u8]) -> Option<String> {
    let b = rng.below(block_count(bytes));
    let c = rng.below(block_count(bytes));
    let (low, high) = (b.min(c), b.max(c));
    if kind(bytes, low) == kind(bytes, high) {
        return None;
    }
    let (front, back) = bytes.split_at_mut(BLOCK * high);
    front[BLOCK * low..BLOCK * (low + 1)].swap_with_slice(&mut back[..BLOCK]);
    Some(format!("blocks {low} and {high} swapped"))
}

/// Takes block `from` once more at place `to`.
fn insert_copy(bytes: &mut Vec<u8>, from: usize, to: usize) {
    let copy = bytes[BLOCK * from..BLOCK * (from + 1)].to_vec();
    bytes.splice(BLOCK * to..BLOCK * to, copy);
}

fn double_block(rng: &mut Rng, bytes: &mut Vec<u8>) -> Option<String> {
    let room = MOST_BLOCKS
        .checked_sub(block_count(bytes))
        .filter(|&room| room > 0)?;
    let b = rng.below(block_count(bytes));
    let times = 1 + rng.below(room.min(4));
    (0..times).for_each(|_| insert_copy(bytes, b, b));
    // Full blocks go on well: with rising ids only the number of blocks of
    // this kind, or the third's count, is left to be at fault.
    if kind(bytes, b) != 4 && rng.one_in(2) {
        let mut id = 0u32;
        for c in b..=b + times {
            for record in 0..used(bytes, c) {
                let at = BLOCK * c + 8 + 40 * record;
                bytes[at..at + 4].copy_from_slice(&id.to_le_bytes());
                id += 1;
            }
        }
    }
    Some(format!("block {b} {times} more times"))
}

/// The parameters away: alone, with all that is behind them, or with the block
/// before them too.
fn drop_parameters(rng: &mut Rng, bytes: &mut Vec<u8>) -> Option<String> {
    let (p, blocks) = (parameters_at(bytes)?, block_count(bytes));
    let dropped = match rng.below(3) {
        0 => p..p + 1,
        1 => p..blocks,
        _ => p.saturating_sub(1)..blocks,
    };
    if dropped.len() == blocks {
        return None;
    }
    bytes.drain(BLOCK * dropped.start..BLOCK * dropped.end);
    Some(format!("blocks {dropped:?} dropped"))
}

/// A block that must not follow the parameters, just behind them or at the end.
fn after_parameters(rng: &mut Rng, bytes: &mut Vec<u8>) -> Option<String> {
    let (p, blocks) = (parameters_at(bytes)?, block_count(bytes));
    if blocks >= MOST_BLOCKS {
        return None;
    }
    let (from, to) = (rng.below(p + 1), rng.pick(&[p + 1, blocks]));
    insert_copy(bytes, from, to);
    Some(format!("block {from} again after the parameters, at {to}"))
}

/// The parameters behind some or all blocks that are to follow them.
fn parameters_later(rng: &mut Rng, bytes: &mut [u8]) -> Option<String> {
    let (p, blocks) = (parameters_at(bytes)?, block_count(bytes));
    let by = blocks.checked_sub(p + 1).filter(|&behind| behind > 0)?;
    let by = 1 + rng.below(by);
    bytes[BLOCK * p..BLOCK * (p + by + 1)].rotate_left(BLOCK);
    Some(format!("the parameters {by} blocks later"))
}

/// The blocks of a kind above 4 before those of a lower one.
fn later_first(rng: &mut Rng, bytes: &mut [u8]) -> Option<String> {
    let kinds: Vec<u8> = bytes.iter().step_by(BLOCK).copied().collect();
    let mut later: Vec<u8> = kinds.iter().copied().filter(|&kind| kind > 4).collect();
    later.dedup();
    // An earlier damage may have left them in another order.
    if !kinds.is_sorted() || later.len() < 2 {
        return None;
    }
    let low = rng.below(later.len() - 1);
    let [first, second] = [later[low], later[low + 1]];
    let start = |kind: u8| kinds.partition_point(|&other| other < kind);
    let (from, to) = (start(first), start(second + 1));
    bytes[BLOCK * from..BLOCK * to].rotate_left(BLOCK * (start(second) - from));
    Some(format!("kind {second} before kind {first}"))
}

/// A count outside 1 to 12 in a block of a kind above 4.
fn later_count(rng: &mut Rng, bytes: &mut [u8]) -> Option<String> {
    let is_later = |&b: &usize| kind(bytes, b) > last_kind(1);
    let later: Vec<usize> = (0..block_count(bytes)).filter(is_later).collect();
    let b = (!later.is_empty()).then(|| rng.pick(&later))?;
    block(bytes, b)[1] = rng.pick(&[0, 13, 14, 128, 255]);
    Some(format!("count outside 1 to 12 in block {b}"))
}

/// More blocks than edition 1 can have, by blocks that come again.
fn crowd_first_edition(rng: &mut Rng, bytes: &mut Vec<u8>) -> Option<String> {
    let blocks = FIRST_FULL + 1 + rng.below(MOST_BLOCKS - FIRST_FULL);
    if edition(bytes) != 1 || block_count(bytes) >= blocks {
        return None;
    }
    while block_count(bytes) < blocks {
        let b = rng.below(block_count(bytes));
        insert_copy(bytes, b, b);
    }
    Some(format!("{blocks} blocks in edition 1"))
}

/// "count is not 12 though the next block has its kind", and nothing else: the
/// last records go away whole.
fn shorten_full_block(rng: &mut Rng, bytes: &mut [u8]) -> Option<String> {
    let pairs: Vec<usize> = (1..block_count(bytes))
        .filter(|&b| kind(bytes, b - 1) == kind(bytes, b))
        .collect();
    if pairs.is_empty() {
        return None;
    }
    let b = rng.pick(&pairs) - 1;
    let left = rng.pick(&[11, 11, 8, 1]);
    block(bytes, b)[1] = left;
    block(bytes, b)[8 + 40 * usize::from(left)..488].fill(0);
    Some(format!("block {b} shortened to {left}"))
}

/// "third of its kind with a count above 8", and nothing else: the records go
/// on with rising ids where the ids leave room.
fn overfull_third(rng: &mut Rng, bytes: &mut [u8]) -> Option<String> {
    let thirds: Vec<usize> = (2..block_count(bytes))
        .filter(|&b| kind(bytes, b - 2) == kind(bytes, b))
        .collect();
    if thirds.is_empty() {
        return None;
    }
    // Often a kind's that edition 1 doesn't have.
    let is_later = |&b: &usize| kind(bytes, b) > last_kind(1);
    let later: Vec<usize> = thirds.iter().copied().filter(is_later).collect();
    let b = if later.is_empty() || rng.one_in(4) {
        rng.pick(&thirds)
    } else {
        rng.pick(&later)
    };
    let old = used(bytes, b).max(1);
    let new = 9 + rng.below(4);
    let block = block(bytes, b);
    block[1] = new as u8;
    for record in old..new {
        let at = 8 + 40 * record;
        let (done, rest) = block.split_at_mut(at);
        rest[..40].copy_from_slice(&done[at - 40..]);
        let id = u32::from_le_bytes([rest[0], rest[1], rest[2], rest[3]]);
        rest[..4].copy_from_slice(&id.saturating_add(1).to_le_bytes());
    }
    Some(format!("third block {b} filled to {new}"))
}

/// A block of count 0 where its kind would stand.
fn empty_block(rng: &mut Rng, bytes: &mut Vec<u8>) -> Option<String> {
    let blocks = block_count(bytes);
    if blocks >= MOST_BLOCKS {
        return None;
    }
    let last = last_kind(edition(bytes));
    let known = WITH_IDS.iter().filter(|&&kind| kind <= last).count();
    let new = rng.pick(&WITH_IDS[..known]);
    let place = (0..blocks)
        .find(|&b| kind(bytes, b) >= new)
        .unwrap_or(blocks);
    let mut empty = [0; BLOCK];
    empty[0] = new;
    empty[6..8].copy_from_slice(&bytes[6..8]);
    bytes.splice(BLOCK * place..BLOCK * place, empty);
    Some(format!("empty block of kind {new} at {place}"))
}
