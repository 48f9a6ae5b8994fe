//! Sentences about rows for the writer.

use super::Sentences;
use crate::kinds::{later_kinds, Kind, EDITIONS, KINDS};
use crate::lists::RowLists;

#[rustfmt::skip]
pub static OF_WRITING: Sentences<SeenRows> = Sentences {
    general: &[
        ("10, an unknown edition and nothing else at place 0", |s| s.answer == 10_000 && s.added_up() && !s.known()),
        ("6, a soil type of 65,536", |s| s.row_refused(6, SOIL) && s.row.get(2) == Some(&65_536)),
    ],
    of_editions: &[
        ("accepted, edition @ without kinds above 4", |s, e| s.accepted(e) && s.later() == []),
        ("accepted, edition @ with all kinds above 4", |s, e| s.accepted(e) && s.later().len() == later_kinds().count()),
    ],
    of_kinds: &[
        ("10, rows of kind # in edition 1", |s, kind| s.edition == 1 && s.list_refused(kind)),
        ("5, kind #", |s, kind| s.row_refused(5, kind)),
        ("6, kind #", |s, kind| s.row_refused(6, kind)),
    ],
    of_both: &[
        ("10, more rows than there may be of kind # in edition @", |s, e, kind| {
            s.edition == e && s.list_refused(kind) && s.length(kind) > kind_of(kind).numbers * kind_of(kind).most_rows
        }),
        ("10, no whole number of rows of kind # in edition @", |s, e, kind| {
            s.edition == e && s.list_refused(kind) && !s.length(kind).is_multiple_of(kind_of(kind).numbers)
        }),
        ("accepted, edition @ with kind # alone above 4", |s, e, kind| s.accepted(e) && s.later() == [kind]),
    ],
};

const SOIL: u8 = 7;

fn kind_of(kind: u8) -> &'static Kind {
    &KINDS[usize::from(kind) - 1]
}

/// Rows and the answer to them.
pub struct SeenRows {
    edition: u32,
    lengths: Vec<u32>,
    /// Of all rows together.
    area: usize,
    answer: u32,
    /// The soil that is refused, if it is one.
    row: Vec<u32>,
}

impl SeenRows {
    pub fn of(lists: &RowLists, answer: u32) -> Self {
        let mut seen = SeenRows {
            edition: lists.edition,
            lengths: lists.lengths.clone(),
            area: lists.rows.len(),
            answer,
            row: Vec::new(),
        };
        if seen.row_refused(6, SOIL) {
            let nth = answer as usize % 1000 - 12 * seen.first_block(SOIL);
            let rows = &lists.lists()[usize::from(SOIL) - 1];
            let row = rows.chunks(kind_of(SOIL).numbers).nth(nth);
            seen.row = row.expect("a row at this place").to_vec();
        }
        seen
    }

    fn known(&self) -> bool {
        EDITIONS.contains(&self.edition)
    }

    fn added_up(&self) -> bool {
        let sum: u64 = self.lengths.iter().map(|&length| u64::from(length)).sum();
        self.lengths.len() == KINDS.len() && sum == self.area as u64
    }

    fn accepted(&self, edition: u32) -> bool {
        self.answer == 0 && self.edition == edition
    }

    fn length(&self, kind: u8) -> usize {
        let length = self.lengths.get(usize::from(kind) - 1);
        length.map_or(0, |&length| length as usize)
    }

    /// The kinds above 4 that have rows.
    fn later(&self) -> Vec<u8> {
        let has = |&kind: &u8| self.length(kind) > 0;
        later_kinds().filter(has).collect()
    }

    fn list_refused(&self, kind: u8) -> bool {
        self.answer == 10_000 + u32::from(kind)
    }

    /// The blocks that a kind takes, and the first of them.
    fn blocks(&self, kind: u8) -> usize {
        (self.length(kind) / kind_of(kind).numbers).div_ceil(12)
    }

    fn first_block(&self, kind: u8) -> usize {
        (1..kind).map(|lower| self.blocks(lower)).sum()
    }

    /// Whether a row of this kind is refused by this number.
    fn row_refused(&self, number: u32, kind: u8) -> bool {
        let first = self.first_block(kind);
        let block = (self.answer % 1000 / 12) as usize;
        self.answer / 1000 == number && (first..first + self.blocks(kind)).contains(&block)
    }
}

#[cfg(test)]
mod tests {
    use super::*;

    /// Rows of these lengths, of the other kinds none.
    fn met(edition: u32, of: &[(u8, usize)], answer: u32) -> Vec<String> {
        let mut lengths = vec![0; KINDS.len()];
        for &(kind, length) in of {
            lengths[usize::from(kind) - 1] = length as u32;
        }
        let lists = RowLists {
            how: String::new(),
            edition,
            rows: vec![0; of.iter().map(|(_, length)| length).sum()],
            lengths,
        };
        OF_WRITING.met_names(&SeenRows::of(&lists, answer))
    }

    #[test]
    fn sentences_by_hand() {
        let unknown = "10, an unknown edition and nothing else at place 0";
        assert_eq!(met(77, &[(4, 6), (6, 14)], 10_000), [unknown]);
        for edition in [2, 3] {
            let met = |of: &[(u8, usize)], answer| met(edition, of, answer);
            let in_edition = |name: &str| name.replace('@', &edition.to_string());
            let without = in_edition("accepted, edition @ without kinds above 4");
            assert_eq!(met(&[(4, 6)], 0), [without]);
            let mut all = vec![(4, 6)];
            all.extend(later_kinds().map(|kind| (kind, kind_of(kind).numbers)));
            let with = in_edition("accepted, edition @ with all kinds above 4");
            assert_eq!(met(&all, 0), [with]);
            for kind in later_kinds() {
                let named = |name: &str| [in_edition(name).replace('#', &kind.to_string())];
                let (numbers, refused) = (kind_of(kind).numbers, 10_000 + u32::from(kind));
                let with = |length: usize| [(4, 6), (kind, length)];
                let more = named("10, more rows than there may be of kind # in edition @");
                assert_eq!(met(&with(33 * numbers), refused), more);
                let part = named("10, no whole number of rows of kind # in edition @");
                assert_eq!(met(&with(numbers - 1), refused), part);
                let alone = named("accepted, edition @ with kind # alone above 4");
                assert_eq!(met(&with(numbers), 0), alone);
                // Thirteen stock rows are blocks 0 and 1, the parameters 2, the kind 3.
                let places = [(2, 65), (4, 6), (kind, 2 * numbers)];
                assert_eq!(met(&places, 5036), named("5, kind #"));
                assert_eq!(met(&places, 6037), named("6, kind #"));
                assert!(met(&places, 6024).is_empty());
            }
        }
        for kind in later_kinds() {
            let (numbers, refused) = (kind_of(kind).numbers, 10_000 + u32::from(kind));
            let first = format!("10, rows of kind {kind} in edition 1");
            assert_eq!(met(1, &[(4, 6), (kind, numbers)], refused), [first]);
        }
    }

    /// The second of two soils, behind the parameters.
    #[test]
    fn a_soil_type_by_hand() {
        let met = |own: u32| {
            let mut soils = vec![0; 18];
            soils[9 + 2] = own;
            let lists = RowLists {
                how: String::new(),
                edition: 2,
                rows: [vec![0; 6], soils].concat(),
                lengths: vec![0, 0, 0, 6, 0, 0, 18, 0],
            };
            OF_WRITING.met_names(&SeenRows::of(&lists, 6013))
        };
        let kind = "6, kind 7";
        assert_eq!(met(65_536), ["6, a soil type of 65,536", kind]);
        assert_eq!(met(65_537), [kind]);
        assert_eq!(met(0), [kind]);
    }
}
