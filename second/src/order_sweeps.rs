//! Returns by the kinds and the editions of their blocks, each in its turn.
//! Everything else in them is good.

use crate::case::Case;
use crate::damage::{block, block_count};
use crate::kinds::{self, KINDS};
use crate::make::{full_kinds, last_kind, place_of, repair_checks, seal, RowCounts, Rows};
use crate::make::{ALL_EDITIONS, BLOCK, LATER_EDITIONS};
use crate::make::{MOST_BLOCKS, WITHOUT_TREES, WITH_IDS};
use crate::rng::Rng;

/// Every kind and one more.
const ANY_KIND: usize = KINDS.len() + 1;
/// Every edition, 0 and one more.
const ANY_EDITION: usize = *kinds::EDITIONS.end() as usize + 2;
/// The kinds in one to four blocks.
pub const ORDERS: usize = lists(ANY_KIND, 4);
/// The editions in one to four blocks.
pub const EDITIONS: usize = lists(ANY_EDITION, 4);
/// Numbers of blocks from eight to some more than there may be, in each edition.
const CROWDS: usize = MOST_BLOCKS - 4;
pub const ALL_CROWDS: usize = ALL_EDITIONS.len() * CROWDS;
/// The orders, in each edition, and the editions of one block and of two.
pub const SHORT_ORDERS: usize = ALL_EDITIONS.len() * lists(ANY_KIND, 2);
pub const SHORT_EDITIONS: usize = lists(ANY_EDITION, 2);

/// How many lists of numbers below `below` there are, of one to so many.
const fn lists(below: usize, longest: u32) -> usize {
    match longest {
        0 => 0,
        _ => below.pow(longest) + lists(below, longest - 1),
    }
}

/// The `index`-th list of numbers below `below`, the shorter lists first.
fn nth_list(mut index: usize, below: usize) -> Vec<u8> {
    let mut length = 1;
    while index >= below.pow(length) {
        index -= below.pow(length);
        length += 1;
    }
    let digit = |at| (index / below.pow(at) % below) as u8;
    (0..length).map(digit).collect()
}

/// Edition 1 for every other index, and a later one for those between.
pub fn first_or_later(index: usize, rng: &mut Rng) -> u16 {
    if index.is_multiple_of(2) {
        1
    } else {
        rng.pick(&LATER_EDITIONS)
    }
}

/// Every order of kinds in edition 1 and in a later one, those that it doesn't have
/// included.
pub fn orders(index: usize, rng: &mut Rng) -> Case {
    let edition = first_or_later(index, rng);
    of_kinds(rng, edition, &nth_order(index / 2))
}

/// Those of one block and of two in each edition.
pub fn short_orders(index: usize, rng: &mut Rng) -> Case {
    let edition = ALL_EDITIONS[index % 3];
    of_kinds(rng, edition, &nth_order(index / 3))
}

fn nth_order(index: usize) -> Vec<u8> {
    let kinds = nth_list(index, ANY_KIND);
    kinds.iter().map(|kind| kind + 1).collect()
}

/// Every edition in every block of a small return, whose kinds are good in
/// the later ones and now and then in edition 1 too. It has no scattered trees.
pub fn editions(index: usize, rng: &mut Rng) -> Case {
    let editions = nth_list(index, ANY_EDITION);
    let mut kinds = vec![4];
    while kinds.len() < editions.len() {
        let kind = rng.pick(&WITH_IDS);
        if !kinds.contains(&kind) {
            kinds.push(kind);
        }
    }
    kinds.sort_unstable();
    let mut bytes = of_kinds(rng, WITHOUT_TREES, &kinds).bytes;
    for (b, &edition) in editions.iter().enumerate() {
        block(&mut bytes, b)[6] = edition;
    }
    repair_checks(&mut bytes);
    Case {
        how: format!("editions {editions:?} of kinds {kinds:?}"),
        bytes,
    }
}

/// Rising kinds in eight blocks and more, in each edition: from eleven on edition 1 has no
/// place for them, and above the most blocks none has.
pub fn crowds(index: usize, rng: &mut Rng) -> Case {
    let (edition, blocks) = (ALL_EDITIONS[index % 3], 8 + index / 3 % CROWDS);
    let mut kinds = full_kinds(edition);
    while kinds.len() > blocks {
        let b = rng.below(kinds.len());
        if kinds[b] != 4 {
            kinds.remove(b);
        }
    }
    let last = usize::from(last_kind(edition));
    kinds.extend((kinds.len()..blocks).map(|_| 1 + rng.below(last) as u8));
    kinds.sort_unstable();
    of_kinds(rng, edition, &kinds)
}

/// Blocks of these kinds, each good by itself: their ids rise all through, and a
/// block whose kind goes on is full.
fn of_kinds(rng: &mut Rng, edition: u16, kinds: &[u8]) -> Case {
    let mut bytes = Vec::new();
    let mut id = 0u32;
    for (b, &kind) in kinds.iter().enumerate() {
        let goes_on = kinds.get(b + 1) == Some(&kind);
        let count = if goes_on { 12 } else { 1 + rng.below(8) };
        let mut block = good_block(rng, edition, kind, count);
        let with_ids = if kind == 4 { 0 } else { count };
        for record in block[8..].chunks_mut(40).take(with_ids) {
            record[..4].copy_from_slice(&id.to_le_bytes());
            id += 1;
        }
        bytes.extend(block);
    }
    seal(&mut bytes);
    Case {
        how: format!("kinds {kinds:?} in edition {edition}"),
        bytes,
    }
}

/// A good block of this kind; of one that there isn't, a header and zeros.
fn good_block(rng: &mut Rng, edition: u16, kind: u8, count: usize) -> Vec<u8> {
    let mut counts = RowCounts::default();
    if let Some(place) = place_of(kind) {
        counts[place] = count;
    }
    let mut bytes = Rows::good_in(rng, edition, counts).to_bytes();
    if let Some(b) = (0..block_count(&bytes)).find(|&b| bytes[BLOCK * b] == kind) {
        return block(&mut bytes, b).to_vec();
    }
    let mut zeros = vec![0; BLOCK];
    zeros[..2].copy_from_slice(&[kind, count as u8]);
    zeros[6..8].copy_from_slice(&edition.to_le_bytes());
    zeros
}

#[cfg(test)]
mod tests {
    use super::*;
    use crate::judge::judge;

    fn known(edition: u8, kind: u8) -> bool {
        kind <= last_kind(edition.into())
    }

    /// All rules on kinds together: the kinds rise, one of them is 4 and there are
    /// no others than the edition's. So says each edition as a whole.
    fn form_is_good(edition: u8, kinds: &[u8]) -> bool {
        let times = |kind: u8| kinds.iter().filter(|&&other| other == kind).count();
        let known = kinds.iter().all(|&kind| known(edition, kind));
        let few = kinds.iter().all(|&kind| times(kind) <= 3);
        kinds.is_sorted() && times(4) == 1 && known && few
    }

    fn kinds_of(bytes: &[u8]) -> Vec<u8> {
        bytes.chunks(BLOCK).map(|block| block[0]).collect()
    }

    #[test]
    fn orders_are_judged_by_their_form() {
        for index in 0..2 * ORDERS {
            let case = orders(index, &mut Rng::for_input(111, index as u64));
            let (edition, kinds) = (case.bytes[6], kinds_of(&case.bytes));
            let answer = judge(&case.bytes).answer();
            let unknown = kinds.iter().position(|&kind| !known(edition, kind));
            match unknown {
                Some(b) => assert_eq!(answer, 3000 + b as u32, "{}", case.how),
                None if form_is_good(edition, &kinds) => assert_eq!(answer, 0, "{}", case.how),
                None => assert_eq!(answer / 1000, 4, "{}", case.how),
            }
        }
    }

    #[test]
    fn editions_are_one_for_all_blocks() {
        for index in 0..EDITIONS {
            let case = editions(index, &mut Rng::for_input(112, index as u64));
            let editions: Vec<u8> = case.bytes.chunks(BLOCK).map(|block| block[6]).collect();
            let kinds = kinds_of(&case.bytes);
            let first = editions[0];
            let good = |(&edition, &kind): (&u8, &u8)| {
                edition == first && (1..=3).contains(&first) && known(first, kind)
            };
            let bad = editions.iter().zip(&kinds).position(|block| !good(block));
            let due = bad.map_or(0, |b| 3000 + b as u32);
            assert_eq!(judge(&case.bytes).answer(), due, "{}", case.how);
        }
    }

    #[test]
    fn crowds_are_judged_by_their_form() {
        for index in 0..ALL_CROWDS * 20 {
            let case = crowds(index, &mut Rng::for_input(113, index as u64));
            let (edition, kinds) = (case.bytes[6], kinds_of(&case.bytes));
            let number = judge(&case.bytes).answer() / 1000;
            let good = form_is_good(edition, &kinds);
            let due = match kinds.len() {
                blocks if blocks > MOST_BLOCKS => 1,
                _ if good => 0,
                _ => 4,
            };
            assert_eq!(number, due, "{}", case.how);
            assert!(edition > 1 || kinds.len() < 11 || !good);
        }
    }
}
