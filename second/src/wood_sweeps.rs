//! Rows by the wood that is cleared and the wood that is used (02, §8), each balance,
//! each row and each other number in its turn: as returns, and for the writer.

use crate::case::Case;
use crate::lists::RowLists;
use crate::make::{Rows, AFTER, ALL_EDITIONS, BEFORE, MOST_ROWS, SUMMED, WITH_IDS};
use crate::mix;
use crate::order_sweeps::first_or_later;
use crate::rng::Rng;
use crate::rowlists;

/// What is left of L without 100 K.
const MORE: [i64; 11] = [-101, -100, -99, -2, -1, 0, 1, 2, 99, 100, 101];
/// Conversion rows and harvest rows: one, some, and the borders of their blocks.
const COUNTS: [usize; 7] = [1, 2, 12, 13, 24, 25, MOST_ROWS];
/// Every balance of every two counts, in edition 1 and in a later one.
pub const BALANCES: usize = 2 * MORE.len() * COUNTS.len() * COUNTS.len();
/// Every conversion row and every harvest row, with as much cleared as used and with
/// one more.
pub const ALONE: usize = 2 * 2 * MOST_ROWS;
/// How often each other number is broken beside 12.
const TRIES: usize = 40;
/// Those that come before it when a return is judged, and when rows are written.
const BEFORE_12: [u32; 8] = [1, 2, 3, 4, 5, 6, 14, 7];
const BEFORE_12_WRITING: [u32; 5] = [10, 5, 6, 14, 7];
pub const WITH_12: usize = TRIES * BEFORE_12.len();
pub const WITH_12_WRITING: usize = TRIES * BEFORE_12_WRITING.len();

pub fn balances(index: usize, rng: &mut Rng) -> Case {
    return_of(balanced(index, rng))
}

pub fn alone(index: usize, rng: &mut Rng) -> Case {
    return_of(rows_alone(index, rng))
}

/// Each number before 12, and 12 in the same return.
pub fn with_12(index: usize, rng: &mut Rng) -> Case {
    mix::broken(rng, &[BEFORE_12[index % BEFORE_12.len()], 12])
}

pub fn written_balances(index: usize, rng: &mut Rng) -> RowLists {
    lists_of(balanced(index, rng))
}

pub fn written_alone(index: usize, rng: &mut Rng) -> RowLists {
    lists_of(rows_alone(index, rng))
}

/// Each number that writing tries before 12, and 12 in the same rows.
pub fn written_with_12(index: usize, rng: &mut Rng) -> RowLists {
    let other = BEFORE_12_WRITING[index % BEFORE_12_WRITING.len()];
    rowlists::broken(rng, &[other, 12])
}

/// Rows and a short word on how they were made.
type Made = (String, Rows);

fn return_of((how, rows): Made) -> Case {
    let bytes = rows.to_bytes();
    Case { how, bytes }
}

fn lists_of((how, rows): Made) -> RowLists {
    RowLists::of(how, &rows)
}

fn balanced(index: usize, rng: &mut Rng) -> Made {
    let (edition, index) = (first_or_later(index, rng), index / 2);
    let (more, index) = (MORE[index % MORE.len()], index / MORE.len());
    let [conversion, harvest] = [index, index / COUNTS.len()].map(|i| COUNTS[i % COUNTS.len()]);
    let mut rows = drawn(rng, edition, conversion, harvest);
    rows.balance(rng, more);
    let how = format!("cleared {more} above used, {:?} rows", rows.counts());
    (how, rows)
}

/// Full lists in which one conversion row alone clears, and one harvest row alone is
/// used.
fn rows_alone(index: usize, rng: &mut Rng) -> Made {
    let (more, index) = (index % 2, index / 2);
    let (which, row) = (index % 2, index / 2 % MOST_ROWS);
    let other = rng.below(MOST_ROWS);
    let [clearing, used] = if which == 0 {
        [row, other]
    } else {
        [other, row]
    };
    let edition = rng.pick(&ALL_EDITIONS);
    let mut rows = drawn(rng, edition, MOST_ROWS, MOST_ROWS);
    let hundreds = rng.from_to(1, 9_999);
    for row in &mut rows.conversion {
        row[SUMMED[1]] = 0;
    }
    let row = &mut rows.conversion[clearing];
    row[1] = 100 * hundreds + more as u32;
    (row[BEFORE[0]], row[AFTER[0]]) = (7, 6);
    SUMMED.iter().for_each(|&at| row[at] = 0);
    row[SUMMED[1]] = 1;
    for row in &mut rows.harvest {
        row[1..].fill(0);
        // A field by itself uses nothing.
        row[rng.pick(&[1, 2])] = rng.from_to(0, 10_000);
    }
    rows.harvest[used][1..].copy_from_slice(&[hundreds, 1, 0, 0]);
    let how = format!("row {clearing} alone cleared, row {used} alone used, {more} above");
    (how, rows)
}

/// Good rows, so many of conversion and harvest.
fn drawn(rng: &mut Rng, edition: u16, conversion: usize, harvest: usize) -> Rows {
    let mut counts = WITH_IDS.map(|_| rng.below(3));
    (counts[0], counts[2]) = (conversion, harvest);
    let counts = &counts[..if edition == 1 { 3 } else { WITH_IDS.len() }];
    Rows::good_in(rng, edition, counts)
}

#[cfg(test)]
mod tests {
    use super::*;
    use crate::judge::judge;
    use crate::kinds::RETURN_ROOM;

    fn written(lists: &RowLists) -> u32 {
        lists.write(&mut [0; RETURN_ROOM], &mut [0])
    }

    #[test]
    fn balances_are_refused_above_zero() {
        for index in 0..BALANCES {
            let more = MORE[index / 2 % MORE.len()];
            let due = if more > 0 { 12_000 } else { 0 };
            let mut rng = Rng::for_input(172, index as u64);
            let (how, rows) = balanced(index, &mut rng);
            let [used, cleared] = rows.used_and_cleared().map(|sum| sum as i64);
            assert_eq!(cleared - used, more, "{how}");
            assert!(cleared > 0, "{how}");
            assert_eq!(judge(&rows.to_bytes()).answer(), due, "{how}");
            assert_eq!(written(&lists_of((how, rows))), due);
        }
    }

    #[test]
    fn every_row_counts() {
        for index in 0..ALONE {
            let due = [0, 12_000][index % 2];
            let mut rng = Rng::for_input(173, index as u64);
            let case = alone(index, &mut rng);
            assert_eq!(judge(&case.bytes).answer(), due, "{}", case.how);
            let mut rng = Rng::for_input(174, index as u64);
            let lists = written_alone(index, &mut rng);
            assert_eq!(written(&lists), due, "{}", lists.how);
        }
    }

    /// "tried straight after 7": every other number comes before it.
    #[test]
    fn the_other_number_shows() {
        let mut others = 0;
        for index in 0..WITH_12 {
            let case = with_12(index, &mut Rng::for_input(175, index as u64));
            let (due, given) = (
                BEFORE_12[index % BEFORE_12.len()],
                judge(&case.bytes).answer(),
            );
            // A block or a record more may be good, or at fault with its id only.
            let later = due == 4 && (given == 0 || given / 1000 > 4);
            assert!(given / 1000 == due || later, "{}", case.how);
            others += u32::from(later);
        }
        assert!(others < TRIES as u32 / 4, "{others}");
        for index in 0..WITH_12_WRITING {
            let lists = written_with_12(index, &mut Rng::for_input(176, index as u64));
            let due = BEFORE_12_WRITING[index % BEFORE_12_WRITING.len()];
            assert_eq!(written(&lists) / 1000, due, "{}", lists.how);
        }
    }
}
