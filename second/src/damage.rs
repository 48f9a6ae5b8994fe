//! Damage to the bytes of a return, in any edition: numbers 1 to 4.
//!
//! Several can be laid over each other, from the highest number down: the
//! repair of checks after 3 or 4 would undo an earlier damage of number 2.

mod headers;
mod layout;
mod random;

pub use random::random_blocks;

use crate::make::{last_kind, repair_checks, BLOCK};
use crate::rng::Rng;
use headers::{break_check, break_header, break_length};
use layout::break_layout;

pub fn block_count(bytes: &[u8]) -> usize {
    bytes.len() / BLOCK
}

pub fn block(bytes: &mut [u8], b: usize) -> &mut [u8] {
    &mut bytes[BLOCK * b..BLOCK * (b + 1)]
}

fn kind(bytes: &[u8], b: usize) -> u8 {
    bytes[BLOCK * b]
}

/// The edition that block 0 says.
fn edition(bytes: &[u8]) -> u16 {
    u16::from_le_bytes([bytes[6], bytes[7]])
}

/// The first block of parameters, if an earlier damage has left one.
fn parameters_at(bytes: &[u8]) -> Option<usize> {
    (0..block_count(bytes)).find(|&b| kind(bytes, b) == 4)
}

/// Whether there are blocks of a kind that edition 1 doesn't have.
fn has_later_kinds(bytes: &[u8]) -> bool {
    (0..block_count(bytes)).any(|b| kind(bytes, b) > last_kind(1))
}

/// Used records: an earlier damage may have left a count above 12.
fn used(bytes: &[u8], b: usize) -> usize {
    usize::from(bytes[BLOCK * b + 1]).min(12)
}

/// Breaks one of the numbers 1 to 4 once and repairs what must be right: the
/// numbers of the blocks after 4, the checks after 3 and 4.
pub fn break_number(rng: &mut Rng, bytes: &mut Vec<u8>, number: u32) -> String {
    let how = match number {
        1 => return break_length(rng, bytes),
        2 => return break_check(rng, bytes),
        3 => break_header(rng, bytes),
        4 => break_layout(rng, bytes),
        _ => unreachable!("number {number} is broken in rows"),
    };
    repair_checks(bytes);
    how
}

#[cfg(test)]
#[path = "damage_tests.rs"]
mod tests;
