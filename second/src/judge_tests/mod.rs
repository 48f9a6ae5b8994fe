//! Hand-made returns from the paper. Nothing here uses the maker, so that a
//! slip in the maker and one in the judge can't hide each other.

mod blocks;
mod clearing;
mod later;
mod records;
mod second_edition;
mod soils;
mod trees;

use super::{judge, Counts, Refusal, Verdict, LAST_KIND, MOST_BLOCKS};

/// A return under construction: whole blocks, headers right from the start.
pub(crate) struct Hand(Vec<u8>);

impl Hand {
    /// One (kind, count) for each block.
    pub(crate) fn new(blocks: &[(u8, u8)]) -> Self {
        let mut bytes = vec![0; 512 * blocks.len()];
        for (b, &(kind, count)) in blocks.iter().enumerate() {
            let header = [kind, count, b as u8, 0, blocks.len() as u8, 0, 1, 0];
            bytes[512 * b..512 * b + 8].copy_from_slice(&header);
        }
        Hand(bytes)
    }

    /// As [`Hand::new`], in edition 2.
    pub(crate) fn second(blocks: &[(u8, u8)]) -> Self {
        Self::in_edition(2, blocks)
    }

    /// As [`Hand::new`], in this edition.
    pub(crate) fn in_edition(edition: u16, blocks: &[(u8, u8)]) -> Self {
        (0..blocks.len()).fold(Self::new(blocks), |hand, b| hand.edition(b, edition))
    }

    pub(crate) fn edition(mut self, block: usize, edition: u16) -> Self {
        self.0[512 * block + 6..512 * block + 8].copy_from_slice(&edition.to_le_bytes());
        self
    }

    fn at(block: usize, record: usize, offset: usize) -> usize {
        512 * block + 8 + 40 * record + offset
    }

    pub(crate) fn two(mut self, block: usize, record: usize, offset: usize, value: u16) -> Self {
        let at = Self::at(block, record, offset);
        self.0[at..at + 2].copy_from_slice(&value.to_le_bytes());
        self
    }

    pub(crate) fn four(mut self, block: usize, record: usize, offset: usize, value: u32) -> Self {
        let at = Self::at(block, record, offset);
        self.0[at..at + 4].copy_from_slice(&value.to_le_bytes());
        self
    }

    pub(crate) fn byte(mut self, at: usize, value: u8) -> Self {
        self.0[at] = value;
        self
    }

    /// Ids 0, 1, 2 and so on in the first `count` records of a block.
    pub(crate) fn ids(mut self, block: usize, count: usize, from: u32) -> Self {
        for record in 0..count {
            self = self.four(block, record, 0, from + record as u32);
        }
        self
    }

    pub(crate) fn checked(mut self) -> Vec<u8> {
        for block in self.0.chunks_mut(512) {
            let mut sum = 0u32;
            for (i, &byte) in block[..508].iter().enumerate() {
                sum += (i as u32 + 1) * u32::from(byte);
            }
            block[508..].copy_from_slice(&sum.to_le_bytes());
        }
        self.0
    }

    fn judged(self) -> Verdict {
        judge(&self.checked())
    }
}

/// With these numbers of rows, and none of the kinds behind them.
fn accepted_in(edition: u16, front: &[u32]) -> Verdict {
    let mut rows = [0; LAST_KIND];
    rows[..front.len()].copy_from_slice(front);
    Verdict::Accepted(Counts {
        edition,
        rows,
        scattered: 0,
    })
}

fn accepted<const N: usize>(rows: [u32; N]) -> Verdict {
    accepted_in(1, &rows)
}

fn accepted_second<const N: usize>(rows: [u32; N]) -> Verdict {
    accepted_in(2, &rows)
}

fn refused(number: u32, place: u32) -> Verdict {
    Verdict::Refused(Refusal { number, place })
}

/// The 32 rows of a kind with ids, from block `b` on.
pub(crate) fn filled(hand: Hand, b: usize) -> Hand {
    hand.ids(b, 12, 0).ids(b + 1, 12, 12).ids(b + 2, 8, 24)
}

/// The blocks of 32 rows of each kind but the parameters, which have one.
pub(crate) const FULL: [(u8, u8); MOST_BLOCKS] = {
    let (mut blocks, mut b, mut kind) = ([(4, 1); MOST_BLOCKS], 0, 1);
    while b < MOST_BLOCKS {
        if kind == 4 {
            b += 1;
        } else {
            (blocks[b], blocks[b + 1], blocks[b + 2]) = ((kind, 12), (kind, 12), (kind, 8));
            b += 3;
        }
        kind += 1;
    }
    blocks
};

/// The full return in edition 2.
pub(crate) fn full() -> Hand {
    let starts = (0..MOST_BLOCKS).filter(|&b| b == 0 || FULL[b - 1].0 < FULL[b].0);
    let with_ids = starts.filter(|&b| FULL[b].0 != 4);
    with_ids.fold(Hand::second(&FULL), filled)
}

fn lone() -> Hand {
    Hand::new(&[(4, 1)])
}

/// One conversion record and the parameters.
fn one_conversion() -> Hand {
    Hand::new(&[(1, 1), (4, 1)])
}
