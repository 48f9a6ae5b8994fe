//! Inputs by the wood that is cleared and the wood that is used (02, §8), counted with
//! the answers that are due.
//!
//! Both sums are read off the rows once more, not asked of the judge.

use crate::coverage::{Counters, Coverage, Due};
use crate::lists::{rows_in, Lists};
use crate::make::used_and_cleared;

/// Number 12.
const REFUSED: u32 = 12;

/// What may come, in the order of [`place`].
const OFTEN: [&str; 6] = [
    "12, cleared one above used",
    "12, cleared more above used",
    "accepted, cleared as much as used, above zero",
    "accepted, nothing cleared and nothing used",
    "accepted, cleared one below used",
    "accepted, cleared more below used",
];
/// What may not.
const NEVER: [&str; 2] = [
    "12, cleared no more than used",
    "accepted, cleared more than used",
];

pub struct Balances(Counters);

impl Balances {
    /// So many of each are due.
    pub fn new(due: Due, coverage: &mut Coverage) -> Self {
        let first = coverage.add(due, OFTEN);
        coverage.add(Due::Never, NEVER);
        Balances(first)
    }

    /// Counts an input that is accepted or refused by number 12, and none that is
    /// refused by another.
    pub fn note(&self, number: u32, lists: impl FnOnce() -> Lists, coverage: &mut Coverage) {
        if [0, REFUSED].contains(&number) {
            let lists = lists();
            let [used, cleared] = used_and_cleared(rows_in(&lists, 1), rows_in(&lists, 3));
            coverage.count(self.0, place(number, used, cleared));
        }
    }
}

fn place(number: u32, used: u128, cleared: u128) -> usize {
    match (number == REFUSED, cleared.checked_sub(used)) {
        (true, Some(1)) => 0,
        (true, Some(2..)) => 1,
        (true, _) => OFTEN.len(),
        (false, Some(0)) if cleared > 0 => 2,
        (false, Some(0)) => 3,
        (false, None) if used - cleared == 1 => 4,
        (false, None) => 5,
        (false, Some(_)) => OFTEN.len() + 1,
    }
}

#[cfg(test)]
mod tests {
    use super::*;
    use crate::make::Rows;

    fn lists(used: u32, cleared: u32) -> Lists {
        let mut row = [0; 15];
        row[1..4].copy_from_slice(&[cleared, 9, 8]);
        row[7] = 1;
        // 100 K is a hundred times F.
        let rows = Rows {
            conversion: vec![row],
            harvest: vec![[4, used / 100, 1, 0, 0]],
            parameters: vec![[0; 6]],
            ..Rows::default()
        };
        rows.lists()
    }

    #[test]
    fn balances_by_hand() {
        for (number, used, cleared, due) in [
            (12, 700, 701, Some("12, cleared one above used")),
            (12, 0, 1, Some("12, cleared one above used")),
            (12, 700, 702, Some("12, cleared more above used")),
            (12, 700, 700, Some("12, cleared no more than used")),
            (12, 700, 600, Some("12, cleared no more than used")),
            (
                0,
                700,
                700,
                Some("accepted, cleared as much as used, above zero"),
            ),
            (0, 0, 0, Some("accepted, nothing cleared and nothing used")),
            (0, 700, 699, Some("accepted, cleared one below used")),
            (0, 700, 698, Some("accepted, cleared more below used")),
            (0, 700, 0, Some("accepted, cleared more below used")),
            (0, 700, 701, Some("accepted, cleared more than used")),
            (9, 700, 700, None),
            (7, 700, 701, None),
        ] {
            let mut coverage = Coverage::default();
            let balances = Balances::new(Due::Once, &mut coverage);
            balances.note(number, || lists(used, cleared), &mut coverage);
            let came: Vec<&str> = coverage.came().iter().map(|(name, _)| *name).collect();
            assert_eq!(came, due.into_iter().collect::<Vec<_>>());
        }
    }
}
