//! From rows to the bytes of a return.

use super::{fields, Rows, BLOCK, CHECK_AT, MOST_BLOCKS};

impl Rows {
    /// The return of these rows, with right headers and checks.
    pub fn to_bytes(&self) -> Vec<u8> {
        let mut bytes = Vec::with_capacity(MOST_BLOCKS * BLOCK);
        for (kind, list) in (1..).zip(self.all()) {
            put_kind(&mut bytes, self.edition, kind, list);
        }
        seal(&mut bytes);
        bytes
    }
}

fn put_kind(bytes: &mut Vec<u8>, edition: u16, kind: u8, list: &[u32]) {
    let numbers = fields(kind).len();
    for rows in list.chunks(12 * numbers) {
        let mut block = [0; BLOCK];
        block[..2].copy_from_slice(&[kind, (rows.len() / numbers) as u8]);
        block[6..8].copy_from_slice(&edition.to_le_bytes());
        for (row, record) in rows.chunks(numbers).zip(block[8..].chunks_mut(40)) {
            for (field, value) in fields(kind).iter().zip(row) {
                let bytes = value.to_le_bytes();
                record[field.at..field.end()].copy_from_slice(&bytes[..field.bytes]);
            }
        }
        bytes.extend(block);
    }
}

/// Makes block numbers, numbers of blocks and checks right.
pub fn seal(bytes: &mut [u8]) {
    renumber(bytes);
    repair_checks(bytes);
}

pub fn renumber(bytes: &mut [u8]) {
    let blocks = (bytes.len() / BLOCK) as u16;
    for (b, block) in bytes.chunks_exact_mut(BLOCK).enumerate() {
        block[2..4].copy_from_slice(&(b as u16).to_le_bytes());
        block[4..6].copy_from_slice(&blocks.to_le_bytes());
    }
}

pub fn repair_checks(bytes: &mut [u8]) {
    for block in bytes.chunks_exact_mut(BLOCK) {
        repair_check(block);
    }
}

/// "The check is the sum, over offsets i from 0 to 507, of (i + 1) times the
/// byte."
pub fn repair_check(block: &mut [u8]) {
    let mut sum = 0u32;
    for (i, &byte) in block[..CHECK_AT].iter().enumerate() {
        sum += (i as u32 + 1) * u32::from(byte);
    }
    block[CHECK_AT..].copy_from_slice(&sum.to_le_bytes());
}
