//! Inputs by the two area sums of their soil types (02, §11), counted with the answers
//! that are due.
//!
//! The sums are read off the rows once more, not asked of the judge.

use crate::coverage::{Counters, Coverage, Due, Sort, Sorts};
use crate::lists::{rows_in, Lists};
use crate::make::{area_sums, land_sums, uneven_type, SoilRow};
use crate::make::{SOIL_AREAS, SOIL_TYPE};

/// Number 13.
const REFUSED: u32 = 13;

/// What is seen of an input that is refused by it.
pub struct Seen {
    rows: Vec<SoilRow>,
    /// The lowest type that is uneven, and the position of its first row.
    own: u32,
    first: usize,
}

/// What may come.
const OFTEN: [Sort<Seen>; 20] = [
    ("13, soils of one type", |s| s.types() == 1),
    ("13, of 2 to 4 types", |s| (2..=4).contains(&s.types())),
    ("13, of 5 types and more", |s| s.types() > 4),
    ("13, of 5 soils and more, all of different types", |s| {
        s.types() > 4 && s.types() == s.rows.len()
    }),
    ("13, with the types 0 and 65,535", |s| {
        s.has(0) && s.has(65_535)
    }),
    ("13 at type 0", |s| s.own == 0),
    ("13 at type 65,535", |s| s.own == 65_535),
    ("13, one more now", |s| s.more() == 1),
    ("13, one less now", |s| s.more() == -1),
    ("13, several more now", |s| s.more() > 1),
    ("13, several less now", |s| s.more() < -1),
    ("13, a lower type even", |s| {
        s.rows.iter().any(|row| row[SOIL_TYPE] < s.own)
    }),
    ("13, a lower type even, and before it", |s| {
        s.rows[..s.first].iter().any(|row| row[SOIL_TYPE] < s.own)
    }),
    ("13, a higher type uneven, and before it", |s| {
        s.higher().any(|at| at < s.first)
    }),
    ("13, a higher type uneven, and behind it", |s| {
        s.higher().any(|at| at > s.first)
    }),
    ("13, the first row of the type even by itself", |s| {
        is_even(&s.rows[s.first])
    }),
    ("13, a row that is uneven by itself before it", |s| {
        !s.rows[..s.first].iter().all(is_even)
    }),
    ("13, all rows together even", |s| {
        let mut off = 0;
        area_sums(&s.rows)
            .into_values()
            .for_each(|sums| off += less(sums));
        off == 0
    }),
    ("13, even by land systems", |s| {
        land_sums(&s.rows).into_values().all(|sums| less(sums) == 0)
    }),
    ("13 in a second block of soils, or a third", |s| {
        s.first >= 12
    }),
];
/// What may not.
const NEVER: [&str; 2] = ["13, every type even", "accepted, a type uneven"];

pub struct Uneven {
    often: Sorts<Seen>,
    never: Counters,
}

impl Uneven {
    /// So many of each are due.
    pub fn new(due: Due, coverage: &mut Coverage) -> Self {
        Uneven {
            often: Sorts::new(&OFTEN, due, coverage),
            never: coverage.add(Due::Never, NEVER),
        }
    }

    /// Counts an input that is refused by number 13, and looks whether one that is
    /// accepted should have been.
    pub fn note(&self, number: u32, lists: impl FnOnce() -> Lists, coverage: &mut Coverage) {
        if ![0, REFUSED].contains(&number) {
            return;
        }
        let rows = rows_in(&lists(), 7).to_vec();
        match (number, uneven_type(&rows)) {
            (REFUSED, Some((own, first))) => self.often.note(&Seen { rows, own, first }, coverage),
            (REFUSED, None) => coverage.count(self.never, 0),
            (_, Some(_)) => coverage.count(self.never, 1),
            (_, None) => {}
        }
    }
}

/// The area now less that of twenty years ago.
fn less([now, then]: [u64; 2]) -> i64 {
    now as i64 - then as i64
}

fn is_even(row: &SoilRow) -> bool {
    let [now, then] = SOIL_AREAS.map(|at| row[at]);
    now == then
}

impl Seen {
    fn types(&self) -> usize {
        area_sums(&self.rows).len()
    }

    fn has(&self, own: u32) -> bool {
        self.rows.iter().any(|row| row[SOIL_TYPE] == own)
    }

    /// How much larger the area of the type is now.
    fn more(&self) -> i64 {
        less(area_sums(&self.rows)[&self.own])
    }

    /// The first rows of the other types that are uneven, all of them higher.
    fn higher(&self) -> impl Iterator<Item = usize> + '_ {
        let sums = area_sums(&self.rows).into_iter();
        let others = sums.filter(|&(own, sums)| own != self.own && less(sums) != 0);
        others.filter_map(|(own, _)| self.rows.iter().position(|row| row[SOIL_TYPE] == own))
    }
}

#[cfg(test)]
mod tests {
    use super::*;
    use crate::input::Input;
    use crate::judge::judge;
    use crate::kinds::RETURN_ROOM;
    use crate::make::Rows;
    use crate::rng::Rng;
    use crate::{inputs, mix, rowlists};

    /// What counts of rows of these land systems, types and areas, with this answer.
    fn came(number: u32, soils: &[[u32; 4]]) -> Vec<String> {
        let row = |(id, &[system, own, now, then]): (u32, &[u32; 4])| {
            [id, system, own, now, then, 1, 1, 1, 1]
        };
        let rows = Rows {
            edition: 2,
            parameters: vec![[0; 6]],
            soil: (0..).zip(soils).map(row).collect(),
            ..Rows::default()
        };
        let mut coverage = Coverage::default();
        let uneven = Uneven::new(Due::Once, &mut coverage);
        uneven.note(number, || rows.lists(), &mut coverage);
        let came = coverage.came();
        came.iter().map(|(name, _)| name.to_string()).collect()
    }

    #[test]
    fn sorts_by_hand() {
        let one = [[1, 0, 5, 4]];
        let due = ["13, soils of one type", "13 at type 0", "13, one more now"];
        assert_eq!(came(13, &one), due);
        // Type 7 lacks what 9 has more, and stands behind it; 5 is even.
        let three = [[1, 9, 8, 5], [2, 5, 3, 3], [1, 7, 2, 2], [1, 7, 0, 3]];
        let due = [
            "13, of 2 to 4 types",
            "13, several less now",
            "13, a lower type even",
            "13, a lower type even, and before it",
            "13, a higher type uneven, and before it",
            "13, the first row of the type even by itself",
            "13, a row that is uneven by itself before it",
            "13, all rows together even",
            "13, even by land systems",
        ];
        assert_eq!(came(13, &three), due);
        let behind = [[1, 65_534, 1, 1], [2, 65_535, 3, 4], [2, 65_535, 9, 9]];
        let due = [
            "13, of 2 to 4 types",
            "13 at type 65,535",
            "13, one less now",
            "13, a lower type even",
            "13, a lower type even, and before it",
        ];
        assert_eq!(came(13, &behind), due);
        let ends = [[1, 0, 3, 1], [2, 65_535, 3, 4]];
        let due = [
            "13, of 2 to 4 types",
            "13, with the types 0 and 65,535",
            "13 at type 0",
            "13, several more now",
            "13, a higher type uneven, and behind it",
        ];
        assert_eq!(came(13, &ends), due);
        let mut many: Vec<[u32; 4]> = (0..13).map(|nth| [nth, 100 - nth, 1, 1]).collect();
        many[12] = [12, 88, 0, 1];
        let due = [
            "13, of 5 types and more",
            "13, of 5 soils and more, all of different types",
            "13, one less now",
            "13 in a second block of soils, or a third",
        ];
        assert_eq!(came(13, &many), due);
    }

    /// The makers of returns and of rows leave no sort to chance.
    #[test]
    fn every_sort_comes_often() {
        let often = |refused: &dyn Fn(u64) -> (u32, Lists)| {
            let mut coverage = Coverage::default();
            let uneven = Uneven::new(Due::Once, &mut coverage);
            for index in 0..20_000 {
                let (answer, lists) = refused(index);
                uneven.note(answer / 1000, || lists, &mut coverage);
            }
            assert!(coverage.each_came(20), "{:?}", coverage.came());
        };
        for make in [mix::case, inputs::drawn_explained] {
            often(&|index| {
                let case = make(&mut Rng::for_input(217, index));
                let answer = judge(&case.bytes).answer();
                let good = [0, REFUSED].contains(&(answer / 1000));
                (answer, if good { case.lists() } else { Lists::default() })
            });
        }
        often(&|index| {
            let made = rowlists::case(&mut Rng::for_input(218, index));
            let answer = made.write(&mut [0; RETURN_ROOM], &mut [0]);
            let good = [0, REFUSED].contains(&(answer / 1000));
            (answer, if good { made.lists() } else { Lists::default() })
        });
    }

    #[test]
    fn wrong_answers_are_seen() {
        assert_eq!(came(13, &[[1, 2, 3, 3]]), ["13, every type even"]);
        assert_eq!(came(13, &[]), ["13, every type even"]);
        assert_eq!(came(0, &[[1, 2, 3, 4]]), ["accepted, a type uneven"]);
        assert!(came(0, &[[1, 2, 3, 3]]).is_empty());
        assert!(came(12, &[[1, 2, 3, 4]]).is_empty());
    }
}
