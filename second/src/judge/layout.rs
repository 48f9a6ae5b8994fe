//! Number 4: the order and number of the blocks, their counts and their zeros.

use super::{edition, used_records, Block, Refusal};
use super::{ABANDONED, CONVERSION, CROP, HARVEST, PARAMETERS, SAVANNA, SOIL, STOCK};
use super::{CHECK_AT, LAST_KIND, RECORD, RECORDS_AT};

/// What a block can be at fault with, in the order of the paper's sentence: one
/// that has several is named by the first of them.
#[derive(Clone, Copy, Debug, PartialEq, Eq)]
pub enum Fault {
    /// "whose kind is below the previous block's"
    Order,
    /// The rules on where a return may end, which are each edition's own.
    End,
    /// "which is the fourth or later of its kind". No return has this as its
    /// first fault: the third of the kind stands just before, and its count is
    /// above 8 or not 12.
    Fourth,
    /// "whose count is outside 1 to 12 (kind 4: exactly 1)"
    Count,
    /// "whose count is not 12 though the next block has its kind": the fault is
    /// this block's, not the next one's.
    Unfilled,
    /// "which is third of its kind with a count above 8"
    Overfilled,
    /// "with a non-zero byte where zero is due"
    Stray,
}

/// Refuses at the first block with a fault.
pub(super) fn layout_holds(blocks: &[Block]) -> Result<(), Refusal> {
    match first_fault(blocks) {
        None => Ok(()),
        Some((b, _)) => Err(Refusal {
            number: 4,
            place: b as u32,
        }),
    }
}

/// The first block at fault with number 4, and its first fault. Only tried when
/// every kind is one of the edition's.
pub(crate) fn first_fault(blocks: &[Block]) -> Option<(usize, Fault)> {
    let edition = edition(&blocks[0]);
    let mut seen = [0u32; LAST_KIND + 1];
    let mut previous = 0;
    for (b, block) in blocks.iter().enumerate() {
        let (kind, count) = (block[0], block[1]);
        let next = blocks.get(b + 1).map(|block| block[0]);
        seen[usize::from(kind)] += 1;
        let nth = seen[usize::from(kind)];
        let most = if kind == PARAMETERS { 1 } else { 12 };
        let fault = if kind < previous {
            Fault::Order
        } else if !end_holds(edition, kind, next, seen[usize::from(PARAMETERS)] > 0) {
            Fault::End
        } else if nth > 3 {
            Fault::Fourth
        } else if !(1..=most).contains(&count) {
            Fault::Count
        } else if next == Some(kind) && count != 12 {
            Fault::Unfilled
        } else if nth == 3 && count > 8 {
            Fault::Overfilled
        } else if !zeros_hold(block, kind, usize::from(count)) {
            Fault::Stray
        } else {
            previous = kind;
            continue;
        };
        return Some((b, fault));
    }
    None
}

impl Fault {
    pub const ALL: [Fault; 7] = [
        Fault::Order,
        Fault::End,
        Fault::Fourth,
        Fault::Count,
        Fault::Unfilled,
        Fault::Overfilled,
        Fault::Stray,
    ];

    /// As a clerk is told it.
    pub fn word(self) -> &'static str {
        match self {
            Fault::Order => "order",
            Fault::End => "end",
            Fault::Fourth => "fourth",
            Fault::Count => "count",
            Fault::Unfilled => "unfilled",
            Fault::Overfilled => "overfilled",
            Fault::Stray => "stray",
        }
    }
}

/// Part of number 4, about where a return may end. In edition 1 it is at fault
/// with "kind 4 and not last, or last and not kind 4". In edition 2, and so in 3, these
/// become "kind 4 before a kind below 5, a last block below kind 4, a kind above 4 with
/// no kind 4 before it".
fn end_holds(edition: u16, kind: u8, next: Option<u8>, parameters_seen: bool) -> bool {
    match next {
        _ if edition == 1 => (kind == PARAMETERS) == next.is_none(),
        Some(next) if kind == PARAMETERS => next > PARAMETERS,
        None if kind < PARAMETERS => false,
        _ => kind <= PARAMETERS || parameters_seen,
    }
}

/// Part of number 4: "a non-zero byte where zero is due, unused records
/// included". Zero is due in "bytes after the last field" and in the bytes
/// named zero inside a record, in the records from the count on, and in the
/// "twenty zero bytes" at 488, which follow the unused records at once.
fn zeros_hold(block: &Block, kind: u8, count: usize) -> bool {
    let used = used_records(block, count).iter();
    let inside = match kind {
        CONVERSION => used.map(|r| or(&r[36..])).fold(0, or_two),
        STOCK => used.map(|r| r[5] | or(&r[14..])).fold(0, or_two),
        HARVEST => used.map(|r| or(&r[10..12]) | or(&r[20..])).fold(0, or_two),
        ABANDONED => used.map(|r| or(&r[20..])).fold(0, or_two),
        SAVANNA => used.map(|r| or(&r[32..])).fold(0, or_two),
        SOIL => used.map(|r| or(&r[24..])).fold(0, or_two),
        CROP => used.map(|r| or(&r[28..])).fold(0, or_two),
        _ => used.map(|r| or(&r[..4]) | or(&r[16..])).fold(0, or_two),
    };
    inside | or(&block[RECORDS_AT + RECORD * count..CHECK_AT]) == 0
}

/// All bytes or-ed together: zero when each of them is. Without an early exit
/// this goes over many bytes at a time.
fn or(bytes: &[u8]) -> u8 {
    bytes.iter().copied().fold(0, or_two)
}

fn or_two(a: u8, b: u8) -> u8 {
    a | b
}
