//! Numbers 1 to 3: the length, and each block by its check and its header.

use super::{edition, four, two, Block, Refusal};
use super::{BLOCK, CHECK_AT, CONVERSION, CROP, MOST_BLOCKS, PARAMETERS};

/// Number 1: "length is 0, above" 22 blocks, "or no multiple of 512".
pub(super) fn blocks_of(bytes: &[u8]) -> Result<&[Block], Refusal> {
    let (blocks, rest) = bytes.as_chunks::<BLOCK>();
    if rest.is_empty() && (1..=MOST_BLOCKS).contains(&blocks.len()) {
        Ok(blocks)
    } else {
        Err(Refusal {
            number: 1,
            place: 0,
        })
    }
}

/// Refuses at the first block that doesn't hold. The rule gets all blocks and
/// the position of one.
pub(super) fn first_block(
    blocks: &[Block],
    number: u32,
    holds: impl Fn(&[Block], usize) -> bool,
) -> Result<(), Refusal> {
    match (0..blocks.len()).find(|&b| !holds(blocks, b)) {
        None => Ok(()),
        Some(b) => Err(Refusal {
            number,
            place: b as u32,
        }),
    }
}

/// Number 2: "a check is wrong". All four bytes are compared.
pub(super) fn check_holds(blocks: &[Block], b: usize) -> bool {
    computed_check(&blocks[b]) == stored_check(&blocks[b])
}

pub(crate) fn stored_check(block: &Block) -> u32 {
    four(block, CHECK_AT)
}

/// "the sum, over offsets i from 0 to 507, of (i + 1) times the byte", which is
/// at most 255 x 129,286 and can't overflow the four bytes.
pub(crate) fn computed_check(block: &Block) -> u32 {
    block[..CHECK_AT]
        .iter()
        .zip(1u32..)
        .map(|(&byte, weight)| u32::from(byte) * weight)
        .sum()
}

/// Number 3: "kind not 1 to 4, wrong block number, wrong number of blocks", "an
/// edition other than 1 or 2, an edition unlike block 0's, or a kind above 4 in
/// edition 1"; it "lets edition 3 in" (02, §12). Numbers of two bytes are compared whole.
///
/// The right number of blocks is the length over 512, the only one that number
/// 1 leaves.
pub(super) fn header_holds(blocks: &[Block], b: usize) -> bool {
    let block = &blocks[b];
    is_kind_of(edition(block), block[0])
        && usize::from(two(block, 2)) == b
        && usize::from(two(block, 4)) == blocks.len()
        && edition(block) == edition(&blocks[0])
}

/// An edition that is not known has no kinds at all. "Edition 3 is otherwise edition 2."
fn is_kind_of(edition: u16, kind: u8) -> bool {
    match edition {
        1 => (CONVERSION..=PARAMETERS).contains(&kind),
        2 | 3 => (CONVERSION..=CROP).contains(&kind),
        _ => false,
    }
}
