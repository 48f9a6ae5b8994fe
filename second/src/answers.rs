//! The answers that were due, counted: acceptance and each refusal number, in all and in each edition.

use crate::coverage::{Counters, Coverage, Due};
use crate::kinds::{EDITIONS, KINDS};

/// Refusal numbers go up to 14.
const NUMBERS: u32 = 15;
/// "8 is never given again, its number isn't reused" (02, §3): it fails a
/// comparison when it is due, and is a difference when the first program gives it.
const RETIRED: u32 = 8;
/// The kind that number 13 is about.
const SOIL: usize = 7;

/// The edition that number 14 is about.
const WITHOUT_TREES: u32 = 3;

/// Whether a number can be given in an edition: 13 wants soils, and 14 the edition that has
/// no scattered trees.
fn can_come(number: u32, edition: u32) -> bool {
    match number {
        13 => edition >= KINDS[SOIL - 1].since,
        14 => edition == WITHOUT_TREES,
        _ => true,
    }
}

/// For each number all, and each edition.
const COLUMNS: usize = 1 + *EDITIONS.end() as usize;

pub struct Answers(Counters);

impl Answers {
    /// The answers that are often due (0 for acceptance) are so in all, and in each edition.
    pub fn new(name: &str, often: &[u32], [all, each]: [Due; 2], coverage: &mut Coverage) -> Self {
        let first = coverage.add(Due::Told, [""; 0]);
        for number in 0..NUMBERS {
            let [all, each] = match number {
                RETIRED => [Due::Never; 2],
                _ if often.contains(&number) => [all, each],
                _ => [Due::Told; 2],
            };
            let answer = match number {
                0 => format!("{name}accepted"),
                _ => format!("{name}refused {number}"),
            };
            coverage.add(all, [answer.clone()]);
            for edition in EDITIONS {
                let possible = can_come(number, edition);
                let each = if possible { each } else { Due::Never };
                coverage.add(each, [format!("{answer}, edition {edition}")]);
            }
        }
        Answers(first)
    }

    pub fn note(&self, edition: u32, number: u32, coverage: &mut Coverage) {
        let row = COLUMNS * number as usize;
        coverage.count(self.0, row);
        if EDITIONS.contains(&edition) {
            coverage.count(self.0, row + edition as usize);
        }
    }
}

#[cfg(test)]
mod tests {
    use super::*;
    use crate::coverage::Asked;

    #[test]
    fn answers_are_counted_by_edition() {
        let mut coverage = Coverage::default();
        let answers = Answers::new("judge ", &[0, 7], [Due::Times(2), Due::Once], &mut coverage);
        for (edition, number) in [(1, 0), (2, 0), (77, 7), (1, 7), (2, 11)] {
            answers.note(edition, number, &mut coverage);
        }
        let due = [
            ("judge accepted", 2),
            ("judge accepted, edition 1", 1),
            ("judge accepted, edition 2", 1),
            ("judge refused 7", 2),
            ("judge refused 7, edition 1", 1),
            ("judge refused 11", 1),
            ("judge refused 11, edition 2", 1),
        ];
        assert_eq!(coverage.came(), due);
    }

    #[test]
    fn the_retired_number_is_seen() {
        let mut coverage = Coverage::default();
        let answers = Answers::new("", &[], [Due::Told; 2], &mut coverage);
        let short = Asked {
            inputs: 3,
            shares: false,
            counts: false,
        };
        answers.note(1, 7, &mut coverage);
        answers.note(1, 9, &mut coverage);
        assert!(coverage.reached(short));
        answers.note(1, RETIRED, &mut coverage);
        assert!(!coverage.reached(short));
    }

    /// Edition 1 has no soils, and 1 and 2 have scattered trees.
    #[test]
    fn no_13_in_edition_1_and_no_14_before_3() {
        let short = Asked {
            inputs: 1,
            shares: false,
            counts: false,
        };
        for (number, edition, good) in [
            (13, 1, false),
            (13, 2, true),
            (13, 3, true),
            (13, 77, true),
            (14, 1, false),
            (14, 2, false),
            (14, 3, true),
        ] {
            let mut coverage = Coverage::default();
            let answers = Answers::new("", &[number], [Due::Once; 2], &mut coverage);
            answers.note(edition, number, &mut coverage);
            assert_eq!(coverage.reached(short), good, "{number} in {edition}");
        }
    }
}
