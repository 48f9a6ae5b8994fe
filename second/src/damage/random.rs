//! Random blocks.

use super::{block_count, edition};
use crate::make::{fields, full_kinds, last_kind, repair_check, zero_areas};
use crate::make::{BLOCK, FIRST_FULL, MOST_BLOCKS};
use crate::rng::Rng;

/// Blocks of random bytes with right checks, made plainer from depth to depth:
/// 0 all random, 1 right headers, 2 good kinds and counts, 3 zeros where due,
/// 4 fields near their limits, 5 the same with rising ids.
pub fn random_blocks(rng: &mut Rng, depth: usize) -> Vec<u8> {
    let edition = rng.pick(&[1, 2, 3]);
    // Good kinds of edition 1 fill ten blocks at most.
    let most = if edition == 1 && depth >= 2 {
        FIRST_FULL
    } else {
        MOST_BLOCKS
    };
    let blocks = 1 + rng.below(most);
    let mut bytes = vec![0; BLOCK * blocks];
    rng.fill(&mut bytes);
    if depth >= 1 {
        for (b, block) in bytes.chunks_mut(BLOCK).enumerate() {
            let kind = 1 + rng.below(last_kind(edition.into()).into()) as u8;
            let count = rng.below(14) as u8;
            let header = [kind, count, b as u8, 0, blocks as u8, 0, edition, 0];
            block[..8].copy_from_slice(&header);
        }
    }
    if depth >= 2 {
        shape(rng, &mut bytes);
    }
    if depth >= 3 {
        for block in bytes.chunks_mut(BLOCK) {
            let (kind, count) = (block[0], usize::from(block[1]));
            zero_areas(kind, count)
                .into_iter()
                .for_each(|area| block[area].fill(0));
        }
    }
    if depth >= 4 {
        near_limits(rng, &mut bytes, depth >= 5);
    }
    bytes.chunks_mut(BLOCK).for_each(repair_check);
    bytes
}

/// Kinds that rise, at most three of each, full where the next goes on.
fn shape(rng: &mut Rng, bytes: &mut [u8]) {
    let blocks = block_count(bytes);
    let mut kinds = full_kinds(edition(bytes));
    kinds.retain(|&kind| kind != 4);
    while kinds.len() > blocks - 1 {
        kinds.remove(rng.below(kinds.len()));
    }
    let p = kinds.iter().filter(|&&kind| kind < 4).count();
    kinds.insert(p, 4);
    for b in 0..blocks {
        let nth = kinds[..=b].iter().filter(|&&kind| kind == kinds[b]).count();
        let most = if nth == 3 { 8 } else { 12 };
        let count = match kinds[b] {
            4 => 1,
            kind if kinds.get(b + 1) == Some(&kind) => 12,
            _ => 1 + rng.below(most),
        };
        bytes[BLOCK * b] = kinds[b];
        bytes[BLOCK * b + 1] = count as u8;
    }
}

/// Every field from 0 to one above its limit; ids rise if asked for.
fn near_limits(rng: &mut Rng, bytes: &mut [u8], rising: bool) {
    let mut id = 0u32;
    for block in bytes.chunks_mut(BLOCK) {
        let (kind, count) = (block[0], usize::from(block[1]));
        for record in block[8..].chunks_mut(40).take(count) {
            for field in fields(kind) {
                let limit = field.most;
                let value = match rng.below(64) {
                    0 => limit.saturating_add(1),
                    // Small, so that sums are often good.
                    1..=24 => rng.from_to(0, limit.min(limit / 4 + 1)),
                    25..=40 => 0,
                    _ => rng.from_to(0, limit / 3),
                };
                let bytes = value.to_le_bytes();
                record[field.at..field.end()].copy_from_slice(&bytes[..field.bytes]);
            }
            if rising && kind != 4 {
                id += 1 + rng.below(1 << 20) as u32;
                record[..4].copy_from_slice(&id.to_le_bytes());
            }
        }
    }
}
