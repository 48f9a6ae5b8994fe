//! Inputs by their scattered trees (02, §12), counted with the answers that are due.
//!
//! They are read off the rows once more, not asked of the judge.

use crate::coverage::{Counters, Coverage, Due, Sort, Sorts};
use crate::lists::{first_place, row_at, rows_in, Lists};
use crate::make::{uneven_type, used_and_cleared, SUMMED, TREES, UNIT_CODE, WITHOUT_TREES};

/// Number 14, the numbers that come before it and are about single rows, and those that
/// come after it.
const REFUSED: u32 = 14;
const BEFORE: [u32; 2] = [5, 6];
const AFTER: [u32; 4] = [7, 12, 13, 9];

/// What is seen of an input whose rows can be read.
pub struct Seen {
    number: u32,
    /// Of the answer.
    place: usize,
    edition: u32,
    lists: Lists,
    /// The stock rows of scattered trees, by their positions.
    trees: Vec<usize>,
}

/// What may come.
const OFTEN: [Sort<Seen>; 23] = [
    ("accepted, edition 1 with trees", |s| {
        s.accepted(1) && s.any()
    }),
    ("accepted, edition 2 with trees", |s| {
        s.accepted(2) && s.any()
    }),
    ("accepted, edition 1 with stock and no trees", |s| {
        s.accepted(1) && s.land()
    }),
    ("accepted, edition 2 with stock and no trees", |s| {
        s.accepted(2) && s.land()
    }),
    ("accepted, edition 3 with stock", |s| {
        s.accepted(3) && s.land()
    }),
    ("accepted, one row of trees among others", |s| {
        s.number == 0 && s.trees.len() == 1 && s.stock().len() > 1
    }),
    ("accepted, several rows of trees and of land", |s| {
        s.number == 0 && s.trees.len() > 1 && s.trees.len() < s.stock().len()
    }),
    ("accepted, all of several rows trees", |s| {
        s.number == 0 && s.trees.len() > 1 && s.trees.len() == s.stock().len()
    }),
    ("accepted, 32 rows of trees", |s| {
        s.number == 0 && s.trees.len() == 32
    }),
    ("14, one row of trees", |s| {
        s.refused() && s.trees.len() == 1
    }),
    ("14, several rows of trees", |s| {
        s.refused() && s.trees.len() > 1
    }),
    ("14, all of several rows trees", |s| {
        s.refused() && s.trees.len() > 1 && s.trees.len() == s.stock().len()
    }),
    ("14 at the first stock row", |s| {
        s.refused() && s.trees.first() == Some(&0)
    }),
    ("14 in a second block of stock, or a third", |s| {
        s.refused() && s.trees.first().is_some_and(|&at| at >= 12)
    }),
    ("14, and fractions above 1,000", |s| {
        s.refused() && s.fractions()
    }),
    ("14, and more cleared than used", |s| {
        s.refused() && s.cleared()
    }),
    ("14, and a soil type uneven", |s| s.refused() && s.uneven()),
    ("6 in edition 3, a unit code of 2", |s| {
        s.limit() && s.code() == Some(2)
    }),
    ("6 in edition 3, a unit code above 2", |s| {
        s.limit() && s.code() > Some(2)
    }),
    ("6 in edition 3, trees at a lower place", |s| {
        s.limit() && s.trees_at().any(|at| at < s.place)
    }),
    ("6 in edition 3, trees at a higher place alone", |s| {
        s.limit() && s.any() && s.trees_at().all(|at| at > s.place)
    }),
    ("6 in edition 3, at a row of trees", |s| {
        s.limit() && s.trees_at().any(|at| at == s.place)
    }),
    ("5 in edition 3, and trees", |s| {
        s.number == 5 && s.edition == 3 && s.any()
    }),
];
/// What may not.
const NEVER: [Sort<Seen>; 4] = [
    ("14 in another edition", |s| s.refused() && s.edition != 3),
    ("14, and not at the first row of trees", |s| {
        s.refused() && s.trees_at().next() != Some(s.place)
    }),
    ("accepted, trees in edition 3", |s| s.accepted(3) && s.any()),
    ("a later number, and trees in edition 3", |s| {
        s.edition == 3 && s.any() && AFTER.contains(&s.number)
    }),
];

pub struct Retired {
    often: Sorts<Seen>,
    never: Counters,
}

impl Retired {
    /// So many of each are due.
    pub fn new(due: Due, coverage: &mut Coverage) -> Self {
        Retired {
            often: Sorts::new(&OFTEN, due, coverage),
            never: coverage.add(Due::Never, NEVER.map(|(name, _)| name)),
        }
    }

    /// Counts an input with its edition and its answer, where the numbers before 5 (and 10)
    /// have left rows that can be read.
    pub fn note(
        &self,
        edition: u32,
        answer: u32,
        lists: impl FnOnce() -> Lists,
        coverage: &mut Coverage,
    ) {
        let number = answer / 1000;
        let readable =
            [0, REFUSED].contains(&number) || BEFORE.contains(&number) || AFTER.contains(&number);
        if !readable {
            return;
        }
        let lists = lists();
        let stock = rows_in::<5>(&lists, 2).iter().enumerate();
        let trees = stock.filter(|(_, row)| row[UNIT_CODE] == TREES);
        let seen = Seen {
            number,
            place: (answer % 1000) as usize,
            edition,
            trees: trees.map(|(at, _)| at).collect(),
            lists,
        };
        self.often.note(&seen, coverage);
        for (nth, (_, holds)) in NEVER.iter().enumerate() {
            if holds(&seen) {
                coverage.count(self.never, nth);
            }
        }
    }
}

impl Seen {
    fn accepted(&self, edition: u32) -> bool {
        self.number == 0 && self.edition == edition
    }

    fn refused(&self) -> bool {
        self.number == REFUSED
    }

    /// Number 6 in the edition that has no trees.
    fn limit(&self) -> bool {
        self.number == 6 && self.edition == u32::from(WITHOUT_TREES)
    }

    fn any(&self) -> bool {
        !self.trees.is_empty()
    }

    fn land(&self) -> bool {
        !self.stock().is_empty() && self.trees.is_empty()
    }

    fn stock(&self) -> &[[u32; 5]] {
        rows_in(&self.lists, 2)
    }

    fn trees_at(&self) -> impl Iterator<Item = usize> + '_ {
        let first = first_place(&self.lists, 2);
        self.trees.iter().map(move |at| first + at)
    }

    /// The unit code of the stock row at the answer's place.
    fn code(&self) -> Option<u32> {
        row_at(&self.lists, 2, self.place).map(|row| row[UNIT_CODE])
    }

    fn fractions(&self) -> bool {
        let sum = |row: &[u32; 15]| SUMMED.iter().map(|&at| row[at]).sum::<u32>();
        rows_in(&self.lists, 1).iter().any(|row| sum(row) > 1_000)
    }

    fn cleared(&self) -> bool {
        let [used, cleared] = used_and_cleared(rows_in(&self.lists, 1), rows_in(&self.lists, 3));
        cleared > used
    }

    fn uneven(&self) -> bool {
        uneven_type(rows_in(&self.lists, 7)).is_some()
    }
}

#[cfg(test)]
mod tests {
    use super::*;
    use crate::input::Input;
    use crate::judge::judge;
    use crate::kinds::RETURN_ROOM;
    use crate::make::Rows;
    use crate::rng::Rng;
    use crate::{inputs, mix, rowlists};

    /// What counts of stock rows of these codes behind a conversion row, with this answer.
    fn came(edition: u16, codes: &[u32], answer: u32) -> Vec<String> {
        let row = |(id, &code): (u32, &u32)| [id, code, 1, 1, 1];
        let rows = Rows {
            edition,
            conversion: vec![[0; 15]],
            stock: (0..).zip(codes).map(row).collect(),
            parameters: vec![[0; 6]],
            ..Rows::default()
        };
        let mut coverage = Coverage::default();
        let retired = Retired::new(Due::Once, &mut coverage);
        retired.note(edition.into(), answer, || rows.lists(), &mut coverage);
        let came = coverage.came();
        came.iter().map(|(name, _)| name.to_string()).collect()
    }

    #[test]
    fn sorts_by_hand() {
        let trees = "accepted, edition 1 with trees";
        assert_eq!(came(1, &[1], 0), [trees]);
        let one = "accepted, one row of trees among others";
        assert_eq!(came(1, &[0, 1], 0), [trees, one]);
        let some = "accepted, several rows of trees and of land";
        let second = "accepted, edition 2 with trees";
        assert_eq!(came(2, &[0, 1, 1], 0), [second, some]);
        let all = "accepted, all of several rows trees";
        assert_eq!(came(2, &[1, 1], 0), [second, all]);
        let most = "accepted, 32 rows of trees";
        assert_eq!(came(2, &[1; 32], 0), [second, all, most]);
        assert_eq!(came(3, &[0], 0), ["accepted, edition 3 with stock"]);
        assert!(came(3, &[], 0).is_empty());
        let first = "14 at the first stock row";
        assert_eq!(came(3, &[1], 14_012), ["14, one row of trees", first]);
        let several = "14, several rows of trees";
        let due = [several, "14, all of several rows trees", first];
        assert_eq!(came(3, &[1, 1], 14_012), due);
        assert_eq!(came(3, &[0, 1, 1], 14_013), [several]);
        let mut codes = [0; 13];
        codes[12] = 1;
        let later = "14 in a second block of stock, or a third";
        assert_eq!(came(3, &codes, 14_024), ["14, one row of trees", later]);
        let lower = "6 in edition 3, trees at a lower place";
        let due = ["6 in edition 3, a unit code of 2", lower];
        assert_eq!(came(3, &[1, 2], 6013), due);
        let higher = "6 in edition 3, trees at a higher place alone";
        let due = ["6 in edition 3, a unit code above 2", higher];
        assert_eq!(came(3, &[255, 1], 6012), due);
        assert_eq!(came(3, &[1], 6000), [higher]);
        assert_eq!(came(3, &[1], 6012), ["6 in edition 3, at a row of trees"]);
        assert_eq!(came(3, &[0, 1], 5013), ["5 in edition 3, and trees"]);
        assert!(came(2, &[1, 2], 6013).is_empty());
        assert!(came(3, &[1], 4001).is_empty() && came(3, &[1], 10_002).is_empty());
    }

    #[test]
    fn wrong_answers_are_seen() {
        let trees = "accepted, trees in edition 3";
        assert_eq!(came(3, &[1], 0), [trees]);
        assert!(came(2, &[1], 14_012).contains(&"14 in another edition".to_string()));
        let place = "14, and not at the first row of trees".to_string();
        assert!(came(3, &[0, 1], 14_012).contains(&place));
        assert!(came(3, &[1, 1], 14_013).contains(&place));
        assert_eq!(came(3, &[], 14_012), [place]);
        for answer in [7000, 12_000, 13_048, 9000] {
            let later = ["a later number, and trees in edition 3"];
            assert_eq!(came(3, &[1], answer), later);
        }
    }

    /// The makers of returns and of rows leave no sort to chance.
    #[test]
    fn every_sort_comes_often() {
        let often = |asked: &dyn Fn(u64) -> (u32, u32, Lists)| {
            let mut coverage = Coverage::default();
            let retired = Retired::new(Due::Once, &mut coverage);
            for index in 0..20_000 {
                let (edition, answer, lists) = asked(index);
                retired.note(edition, answer, || lists, &mut coverage);
            }
            assert!(coverage.each_came(20), "{:?}", coverage.came());
        };
        let readable = |answer: u32| ![1, 2, 3, 4, 10].contains(&(answer / 1000));
        for make in [mix::case, inputs::drawn_explained] {
            often(&|index| {
                let case = make(&mut Rng::for_input(225, index));
                let answer = judge(&case.bytes).answer();
                let good = readable(answer);
                let lists = if good { case.lists() } else { Lists::default() };
                (case.edition(), answer, lists)
            });
        }
        often(&|index| {
            let made = rowlists::case(&mut Rng::for_input(226, index));
            let answer = made.write(&mut [0; RETURN_ROOM], &mut [0]);
            let good = readable(answer);
            let lists = if good { made.lists() } else { Lists::default() };
            (made.edition, answer, lists)
        });
    }
}
