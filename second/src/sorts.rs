//! All sorts of accepted inputs by their rows, which every comparison counts.

use crate::coverage::{Coverage, Due, Sorts};
use crate::lists::Lists;
use crate::{burned, residues, thinner, tilled, whereabouts};

/// Counters for each of them.
pub struct RowSorts([Sorts<Lists>; 5]);

impl RowSorts {
    /// So many of each sort are due.
    pub fn new(due: Due, coverage: &mut Coverage) -> Self {
        let tables = [
            &thinner::SORTS[..],
            &burned::SORTS,
            &tilled::SORTS,
            &whereabouts::SORTS,
            &residues::SORTS,
        ];
        RowSorts(tables.map(|table| Sorts::new(table, due, coverage)))
    }

    /// Counts an accepted input by its rows.
    pub fn note(&self, lists: &Lists, coverage: &mut Coverage) {
        self.0.iter().for_each(|sorts| sorts.note(lists, coverage));
    }
}

/// The sorts of these rows, as a return and as rows for the writer.
#[cfg(test)]
pub fn sorts_of(
    table: &[crate::coverage::Sort<Lists>],
    rows: &crate::make::Rows,
) -> Vec<&'static str> {
    use crate::input::Input;
    let of = |lists: Lists| -> Vec<&'static str> {
        let of = table.iter().filter(|(_, holds)| holds(&lists));
        of.map(|(name, _)| *name).collect()
    };
    let (how, bytes) = (String::new(), rows.to_bytes());
    let found = of(crate::case::Case { how, bytes }.lists());
    let written = crate::lists::RowLists::of(String::new(), rows);
    assert_eq!(of(written.lists()), found);
    found
}

#[cfg(test)]
mod tests {
    use super::*;
    use crate::input::Input;
    use crate::judge::judge;
    use crate::kinds::RETURN_ROOM;
    use crate::rng::Rng;
    use crate::{figures, mix, rowlists};

    /// The makers of returns and of rows leave no sort to chance.
    #[test]
    fn every_sort_comes_often() {
        let often = |accepted: &dyn Fn(u64) -> Option<Lists>| {
            let mut coverage = Coverage::default();
            let sorts = RowSorts::new(Due::Once, &mut coverage);
            let lists = (0..10_000).filter_map(accepted);
            lists.for_each(|lists| sorts.note(&lists, &mut coverage));
            assert!(coverage.each_came(20), "{:?}", coverage.came());
        };
        for make in [mix::case, figures::case] {
            often(&|index| {
                let case = make(&mut Rng::for_input(123, index));
                (judge(&case.bytes).answer() == 0).then(|| case.lists())
            });
        }
        often(&|index| {
            let made = rowlists::case(&mut Rng::for_input(124, index));
            (made.write(&mut [0; RETURN_ROOM], &mut [0]) == 0).then(|| made.lists())
        });
    }
}
