//! The judge of a return: refusal numbers 1 to 7 of the paper (01), in order,
//! with edition 2 and its kinds 5 to 8 from the requests on abandoned land, on savannas,
//! on soils and on crop residues (02, §1, §5, §11 and §14), then number 12 from the request
//! on fuelwood (02, §8) and 13 from that on soils. "8 is never given again, its number
//! isn't reused, and 01's order closes over it" (02, §3). Edition 3 is edition 2 without
//! scattered trees, which are number 14, between 6 and 7 (02, §12).
//!
//! "Each number is tried over the whole input before the next, and the lowest
//! place is given": numbers 1 to 4 are a pass each. The faults of 5, 6, 14 and 7 belong
//! to single records and don't lean on each other, so one pass notes the first
//! place of each, and the first number in that order is given. Numbers 12 and 13 add
//! records up, and are a pass each again.

mod blocks;
mod clearing;
mod layout;
mod records;
mod soils;

pub(crate) use blocks::{computed_check, stored_check};
pub(crate) use clearing::wood_of;
pub(crate) use layout::first_fault;
pub use layout::Fault;
pub(crate) use soils::uneven_of;

use crate::wood::Wood;
use blocks::{blocks_of, check_holds, first_block, header_holds};
use clearing::clearing_holds;
use layout::layout_holds;
use records::records_hold;
use soils::soils_hold;

/// What a return is answered with.
#[derive(Clone, Copy, Debug, PartialEq, Eq)]
pub enum Verdict {
    Accepted(Counts),
    Refused(Refusal),
}

/// What an accepted return is: its edition, the numbers of conversion, stock, harvest,
/// parameter, abandoned, savanna, soil and crop rows, and how many of its stock rows are
/// scattered trees.
#[derive(Clone, Copy, Debug, PartialEq, Eq)]
pub struct Counts {
    pub edition: u16,
    pub rows: [u32; LAST_KIND],
    /// "the answer says how many such rows there were" (02, §12)
    pub scattered: u32,
}

impl Counts {
    /// As C gets them: the edition, then the rows of each kind, last the scattered trees.
    pub fn numbers(self) -> [u32; LAST_KIND + 2] {
        let mut numbers = [u32::from(self.edition); LAST_KIND + 2];
        numbers[1..=LAST_KIND].copy_from_slice(&self.rows);
        numbers[LAST_KIND + 1] = self.scattered;
        numbers
    }
}

/// A refusal number of the paper's table, and its place.
#[derive(Clone, Copy, Debug, PartialEq, Eq)]
pub struct Refusal {
    pub number: u32,
    pub place: u32,
}

const BLOCK: usize = 512;
/// "Lengths go to 13 blocks in either edition" (02, §1), "grow by three blocks" (02,
/// §5), are "three blocks more" again (02, §11), and "the longest return is now 22 blocks"
/// (02, §14).
const MOST_BLOCKS: usize = 22;
const RECORD: usize = 40;
pub(crate) const RECORDS_PER_BLOCK: usize = 12;
const RECORDS_AT: usize = 8;
const CHECK_AT: usize = 508;

const CONVERSION: u8 = 1;
const STOCK: u8 = 2;
const HARVEST: u8 = 3;
const PARAMETERS: u8 = 4;
const ABANDONED: u8 = 5;
const SAVANNA: u8 = 6;
const SOIL: u8 = 7;
const CROP: u8 = 8;
const LAST_KIND: usize = CROP as usize;

/// The edition that "has no unit code 1" (02, §12), and that code.
const WITHOUT_TREES: u16 = 3;
const TREES: u8 = 1;

pub(crate) type Block = [u8; BLOCK];
pub type Record = [u8; RECORD];

/// A return that was accepted: the caller's own bytes and the row counts, with the
/// sums that number 12 has taken.
#[derive(Clone, Copy)]
pub struct Checked<'a> {
    blocks: &'a [Block],
    pub counts: Counts,
    pub wood: Wood,
}

impl<'a> Checked<'a> {
    /// The used records of kind 1 to 8, in order.
    pub fn records(self, kind: u8) -> impl Iterator<Item = &'a Record> {
        self.blocks
            .iter()
            .filter(move |block| block[0] == kind)
            .flat_map(|block| used_records(block, usize::from(block[1])))
    }

    /// The one record of kind 4, which every good return has.
    pub fn parameters(self) -> &'a Record {
        let mut all = self.records(PARAMETERS);
        all.next().expect("a good return has parameters")
    }
}

impl Refusal {
    /// As C gets it: "1,000 times the refusal number plus the place".
    pub fn answer(self) -> u32 {
        1000 * self.number + self.place
    }
}

impl Verdict {
    /// As C gets it from room that is long enough.
    pub fn answer(self) -> u32 {
        match self {
            Verdict::Accepted(_) => 0,
            Verdict::Refused(refusal) => refusal.answer(),
        }
    }
}

/// Judges a return: its edition with the row counts, or the refusal the paper
/// asks for.
pub fn judge(bytes: &[u8]) -> Verdict {
    match check(bytes) {
        Ok(checked) => Verdict::Accepted(checked.counts),
        Err(refusal) => Verdict::Refused(refusal),
    }
}

/// As [`judge`], with the records of an accepted return at hand.
pub fn check(bytes: &[u8]) -> Result<Checked<'_>, Refusal> {
    let blocks = blocks_of(bytes)?;
    first_block(blocks, 2, check_holds)?;
    first_block(blocks, 3, header_holds)?;
    layout_holds(blocks)?;
    records_hold(blocks)?;
    let wood = clearing_holds(blocks)?;
    soils_hold(blocks)?;

    let mut rows = [0; LAST_KIND];
    for block in blocks {
        rows[usize::from(block[0] - 1)] += u32::from(block[1]);
    }
    let counts = Counts {
        edition: edition(&blocks[0]),
        rows,
        scattered: scattered(blocks),
    };
    Ok(Checked {
        blocks,
        counts,
        wood,
    })
}

/// How many stock records have the unit code of scattered trees.
fn scattered(blocks: &[Block]) -> u32 {
    let stock = blocks.iter().filter(|block| block[0] == STOCK);
    let records = stock.flat_map(|block| used_records(block, usize::from(block[1])));
    records.filter(|record| unit_code(record) == TREES).count() as u32
}

pub(crate) fn unit_code(record: &Record) -> u8 {
    record[4]
}

/// All whole blocks of any bytes.
pub(crate) fn whole_blocks(bytes: &[u8]) -> &[Block] {
    let (blocks, _) = bytes.as_chunks();
    blocks
}

/// "A record's place is 12 times its block plus its position".
pub(crate) fn record_at(blocks: &[Block], place: usize) -> (u8, &Record) {
    let block = &blocks[place / RECORDS_PER_BLOCK];
    let records = used_records(block, RECORDS_PER_BLOCK);
    (block[0], &records[place % RECORDS_PER_BLOCK])
}

pub(crate) fn edition(block: &Block) -> u16 {
    two(block, 6)
}

fn used_records(block: &Block, count: usize) -> &[Record] {
    let (records, _) = block[RECORDS_AT..].as_chunks::<RECORD>();
    &records[..count]
}

/// "Little-endian."
pub fn two<const N: usize>(bytes: &[u8; N], at: usize) -> u16 {
    u16::from_le_bytes([bytes[at], bytes[at + 1]])
}

pub fn four<const N: usize>(bytes: &[u8; N], at: usize) -> u32 {
    u32::from_le_bytes([bytes[at], bytes[at + 1], bytes[at + 2], bytes[at + 3]])
}

#[cfg(test)]
#[path = "judge_tests/mod.rs"]
pub(crate) mod tests;
