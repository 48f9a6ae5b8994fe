//! Sentences about returns.

use super::Sentences;
use crate::kinds::{later_kinds, EDITIONS, KINDS};
use crate::make::{BLOCK, FIRST_FULL, MOST_BLOCKS};

#[rustfmt::skip]
pub static OF_RETURNS: Sentences<Seen> = Sentences {
    general: &[
        ("3, an edition that there isn't", |s| s.number == 3 && !s.known()),
        ("3, an edition unlike block 0's", |s| s.number == 3 && s.known() && s.own != s.first),
        ("4 in edition 1, above ten blocks", |s| s.layout(1) && s.kinds.len() > FIRST_FULL),
        ("1, above the most blocks and whole", |s| s.number == 1 && s.whole && s.kinds.len() > MOST_BLOCKS),
    ],
    of_editions: &[
        ("3, a kind above the last in edition @", |s, e| s.header(e) && usize::from(s.kind) > KINDS.len()),
        ("4 in edition @, kind 4 before a kind below 5", |s, e| s.layout(e) && s.kind == 4 && s.next().is_some_and(|next| next < 5)),
        ("4 in edition @, a last block below kind 4", |s, e| s.layout(e) && s.kind < 4 && s.next().is_none()),
        ("4 in edition @, a kind above 4 behind a higher one", |s, e| s.layout(e) && s.kind > 4 && s.before().last() > Some(&s.kind)),
        ("4 in edition @, more than one kind 4", |s, e| s.layout(e) && s.times(4) > 1),
        ("accepted, the most blocks in edition @", |s, e| s.accepted(e) && s.kinds.len() == MOST_BLOCKS),
        ("accepted, edition @ without kinds above 4", |s, e| s.accepted(e) && s.later() == []),
    ],
    of_kinds: &[
        ("3, kind # in edition 1", |s, kind| s.header(1) && s.kind == kind),
        ("5, kind #", |s, kind| s.number == 5 && s.kind == kind),
        ("6, kind #", |s, kind| s.number == 6 && s.kind == kind),
    ],
    of_both: &[
        ("4 in edition @, kind # with no kind 4 before it", |s, e, kind| s.layout(e) && s.kind == kind && !s.before().contains(&4)),
        ("4 in edition @, kind # with a count outside 1 to 12", |s, e, kind| s.layout(e) && s.kind == kind && !(1..=12).contains(&s.count())),
        ("4 in edition @, third of kind # with a count above 8", |s, e, kind| {
            s.layout(e) && s.kind == kind && s.before().ends_with(&[kind, kind]) && s.count() > 8
        }),
        ("4 in edition @, a non-zero byte behind the fields of kind #", |s, e, kind| s.layout(e) && s.kind == kind && s.stray()),
        ("accepted, edition @ with kind # alone above 4", |s, e, kind| s.accepted(e) && s.later() == [kind]),
    ],
};

/// The edition that a return's first block says; 0 where there is none.
pub fn edition(bytes: &[u8]) -> u32 {
    match bytes {
        [_, _, _, _, _, _, low, high, ..] => u16::from_le_bytes([*low, *high]).into(),
        _ => 0,
    }
}

/// A return and its answer, whose place is a block up to number 4, and a record
/// from number 5 on.
pub struct Seen {
    number: u32,
    /// The block at that place, its kind and its edition; nothing where there is none.
    b: usize,
    block: Vec<u8>,
    kind: u8,
    own: u32,
    /// Of block 0.
    first: u32,
    /// Of all blocks.
    kinds: Vec<u8>,
    whole: bool,
}

impl Seen {
    pub fn of(bytes: &[u8], answer: u32) -> Self {
        let (number, place) = (answer / 1000, (answer % 1000) as usize);
        let b = if number < 5 { place } else { place / 12 };
        let block = bytes.chunks(BLOCK).nth(b);
        let block = block.filter(|_| number > 1).unwrap_or(&[]);
        Seen {
            number,
            b,
            block: block.to_vec(),
            kind: block.first().copied().unwrap_or(0),
            own: edition(block),
            first: edition(bytes),
            kinds: bytes.chunks(BLOCK).map(|block| block[0]).collect(),
            whole: bytes.len().is_multiple_of(BLOCK),
        }
    }

    fn known(&self) -> bool {
        EDITIONS.contains(&self.own)
    }

    fn header(&self, edition: u32) -> bool {
        self.number == 3 && [self.own, self.first] == [edition; 2]
    }

    fn layout(&self, edition: u32) -> bool {
        self.number == 4 && self.first == edition
    }

    fn accepted(&self, edition: u32) -> bool {
        self.number == 0 && self.first == edition
    }

    fn before(&self) -> &[u8] {
        &self.kinds[..self.b.min(self.kinds.len())]
    }

    fn next(&self) -> Option<u8> {
        self.kinds.get(self.b + 1).copied()
    }

    fn count(&self) -> u8 {
        self.block[1]
    }

    fn times(&self, kind: u8) -> usize {
        self.kinds.iter().filter(|&&other| other == kind).count()
    }

    /// The kinds above 4 that it has.
    fn later(&self) -> Vec<u8> {
        let has = |kind: &u8| self.kinds.contains(kind);
        later_kinds().filter(has).collect()
    }

    /// Whether a used record has a byte behind its fields.
    fn stray(&self) -> bool {
        let end = KINDS[usize::from(self.kind) - 1].fields_end();
        let mut used = self.block[8..488].chunks(40).take(self.count().into());
        used.any(|record| record[end..].iter().any(|&byte| byte != 0))
    }
}

#[cfg(test)]
mod tests {
    use super::*;

    fn met(bytes: &[u8], answer: u32) -> Vec<String> {
        OF_RETURNS.met_names(&Seen::of(bytes, answer))
    }

    /// Blocks of one record each by their kinds alone.
    fn blocks(edition: u8, kinds: &[u8]) -> Vec<u8> {
        let mut bytes = vec![0; 512 * kinds.len()];
        for (block, &kind) in bytes.chunks_mut(512).zip(kinds) {
            (block[0], block[1], block[6]) = (kind, 1, edition);
        }
        bytes
    }

    #[test]
    fn sentences_by_hand() {
        for edition in [2, 3] {
            let named = |name: &str| name.replace('@', &edition.to_string());
            let blocks = |kinds: &[u8]| blocks(edition, kinds);
            let parameters = named("4 in edition @, kind 4 before a kind below 5");
            assert_eq!(met(&blocks(&[4, 3]), 4000), [&parameters[..]]);
            let twice = named("4 in edition @, more than one kind 4");
            assert_eq!(met(&blocks(&[4, 4]), 4000), [parameters, twice]);
            let last = named("4 in edition @, a last block below kind 4");
            assert_eq!(met(&blocks(&[1, 3]), 4001), [last]);
            let above = named("3, a kind above the last in edition @");
            assert_eq!(met(&blocks(&[1, 99]), 3001), [above]);
            let without = named("accepted, edition @ without kinds above 4");
            assert_eq!(met(&blocks(&[3, 4]), 0), [without]);
            let higher = named("4 in edition @, a kind above 4 behind a higher one");
            assert_eq!(met(&blocks(&[4, 6, 5]), 4002), [higher]);
            for other in [1, 5 - edition] {
                let mut mixed = blocks(&[1, 3]);
                mixed[518] = other;
                let unlike = "3, an edition unlike block 0's";
                assert_eq!(met(&mixed, 3001), [unlike]);
            }
            for other in [0, 4, 77] {
                let mut mixed = blocks(&[1, 3]);
                mixed[518] = other;
                let unknown = "3, an edition that there isn't";
                assert_eq!(met(&mixed, 3001), [unknown]);
            }
        }
    }

    /// The parameters and blocks of each kind above 4 behind them.
    #[test]
    fn later_kinds_by_hand() {
        for kind in later_kinds() {
            let own = |name: &str| [name.replace('#', &kind.to_string())];
            let first = own("3, kind # in edition 1");
            assert_eq!(met(&blocks(1, &[1, kind]), 3001), first);
            for edition in [2, 3] {
                let named = |name: &str| own(&name.replace('@', &edition.to_string()));
                let blocks = |kinds: &[u8]| blocks(edition, kinds);
                let early = named("4 in edition @, kind # with no kind 4 before it");
                assert_eq!(met(&blocks(&[kind, 4]), 4000), early);
                let mut two = blocks(&[4, kind]);
                let alone = named("accepted, edition @ with kind # alone above 4");
                assert_eq!(met(&two, 0), alone);
                assert_eq!(met(&two, 5012), named("5, kind #"));
                assert_eq!(met(&two, 6012), named("6, kind #"));
                assert!(met(&two, 6000).is_empty());
                let end = KINDS[usize::from(kind) - 1].fields_end();
                two[512 + 8 + end - 1] = 1;
                assert!(met(&two, 4001).is_empty());
                two[512 + 8 + end] = 1;
                let stray = named("4 in edition @, a non-zero byte behind the fields of kind #");
                assert_eq!(met(&two, 4001), stray);
                two[513] = 0;
                let count = named("4 in edition @, kind # with a count outside 1 to 12");
                assert_eq!(met(&two, 4001), count);
                let mut four = blocks(&[4, kind, kind, kind]);
                four[3 * 512 + 1] = 9;
                let third = named("4 in edition @, third of kind # with a count above 8");
                assert_eq!(met(&four, 4003), third);
            }
        }
    }
}
