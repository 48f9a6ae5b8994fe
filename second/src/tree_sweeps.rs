//! Stock rows by their unit codes (02, §12), each row, each code, each two rows and each
//! other number in its turn, in every edition: as returns, and for the writer.

use crate::case::Case;
use crate::lists::RowLists;
use crate::make::{Rows, ALL_EDITIONS, MOST_ROWS, TREES, UNIT_CODE, WITHOUT_TREES, WITH_IDS};
use crate::mix;
use crate::rng::Rng;
use crate::rowlists;

/// Every row alone, in each edition.
pub const EACH: usize = ALL_EDITIONS.len() * MOST_ROWS;
/// Every code, in each edition.
pub const CODES: usize = ALL_EDITIONS.len() * 256;
/// Every number of rows, in each edition.
pub const HOW_MANY: usize = ALL_EDITIONS.len() * (MOST_ROWS + 1);
/// Every two rows of edition 3: both trees, the second no code at all, or the first.
pub const PAIRS: usize = WAYS * MOST_ROWS * (MOST_ROWS - 1) / 2;
const WAYS: usize = 3;
/// How often each other number is broken beside 14.
const TRIES: usize = 40;
/// All others when a return is judged, and when rows are written: those that come before
/// it first.
const OTHERS: [u32; 9] = [1, 2, 3, 4, 5, 6, 7, 12, 13];
const OTHERS_WRITING: [u32; 6] = [10, 5, 6, 7, 12, 13];
pub const WITH_14: usize = TRIES * OTHERS.len();
pub const WITH_14_WRITING: usize = TRIES * OTHERS_WRITING.len();

pub fn each(index: usize, rng: &mut Rng) -> Case {
    return_of(each_row(index, rng))
}

pub fn codes(index: usize, rng: &mut Rng) -> Case {
    return_of(each_code(index, rng))
}

pub fn how_many(index: usize, rng: &mut Rng) -> Case {
    return_of(so_many(index, rng))
}

pub fn pairs(index: usize, rng: &mut Rng) -> Case {
    return_of(each_pair(index, rng))
}

/// Each other number, and 14 in the same return.
pub fn with_14(index: usize, rng: &mut Rng) -> Case {
    mix::broken(rng, &[OTHERS[index % OTHERS.len()], 14])
}

pub fn written_each(index: usize, rng: &mut Rng) -> RowLists {
    lists_of(each_row(index, rng))
}

pub fn written_codes(index: usize, rng: &mut Rng) -> RowLists {
    lists_of(each_code(index, rng))
}

pub fn written_how_many(index: usize, rng: &mut Rng) -> RowLists {
    lists_of(so_many(index, rng))
}

pub fn written_pairs(index: usize, rng: &mut Rng) -> RowLists {
    lists_of(each_pair(index, rng))
}

/// Each other number that writing tries, and 14 in the same rows.
pub fn written_with_14(index: usize, rng: &mut Rng) -> RowLists {
    let other = OTHERS_WRITING[index % OTHERS_WRITING.len()];
    rowlists::broken(rng, &[other, 14])
}

/// Rows and a short word on how they were made.
type Made = (String, Rows);

fn return_of((how, rows): Made) -> Case {
    let bytes = rows.to_bytes();
    Case { how, bytes }
}

fn lists_of((how, rows): Made) -> RowLists {
    RowLists::of(how, &rows)
}

/// Good rows with 32 of stock, all land.
fn land(rng: &mut Rng, edition: u16) -> Rows {
    let mut counts = WITH_IDS.map(|_| rng.below(3));
    counts[1] = MOST_ROWS;
    let counts = &counts[..if edition == 1 { 3 } else { WITH_IDS.len() }];
    let mut rows = Rows::good_in(rng, edition, counts);
    rows.stock.iter_mut().for_each(|row| row[UNIT_CODE] = 0);
    rows
}

fn each_row(index: usize, rng: &mut Rng) -> Made {
    let (edition, at) = (ALL_EDITIONS[index % 3], index / 3);
    let mut rows = land(rng, edition);
    rows.stock[at][UNIT_CODE] = TREES;
    (format!("trees at {at} alone, edition {edition}"), rows)
}

fn each_code(index: usize, rng: &mut Rng) -> Made {
    let (edition, code) = (ALL_EDITIONS[index % 3], (index / 3) as u32);
    let mut rows = land(rng, edition);
    let at = rng.below(MOST_ROWS);
    rows.stock[at][UNIT_CODE] = code;
    (format!("code {code} at {at}, edition {edition}"), rows)
}

/// So many from a row on, and on from the first one behind the last.
fn so_many(index: usize, rng: &mut Rng) -> Made {
    let (edition, count) = (ALL_EDITIONS[index % 3], index / 3);
    let mut rows = land(rng, edition);
    let first = rng.below(MOST_ROWS);
    for nth in 0..count {
        rows.stock[(first + nth) % MOST_ROWS][UNIT_CODE] = TREES;
    }
    let how = format!("{count} rows of trees from {first} on, edition {edition}");
    (how, rows)
}

fn each_pair(index: usize, rng: &mut Rng) -> Made {
    let (way, mut nth) = (index % WAYS, index / WAYS);
    let mut first = 0;
    while nth >= MOST_ROWS - 1 - first {
        nth -= MOST_ROWS - 1 - first;
        first += 1;
    }
    let second = first + 1 + nth;
    let mut rows = land(rng, WITHOUT_TREES);
    let none = rng.pick(&[2, 3, 255]);
    let codes = [[TREES, TREES], [TREES, none], [none, TREES]][way];
    for (at, code) in [first, second].into_iter().zip(codes) {
        rows.stock[at][UNIT_CODE] = code;
    }
    (format!("codes {codes:?} at {first} and {second}"), rows)
}

#[cfg(test)]
mod tests {
    use super::*;
    use crate::judge::{judge, Verdict};
    use crate::kinds::RETURN_ROOM;
    use crate::make::BLOCK;

    fn written(lists: &RowLists) -> u32 {
        lists.write(&mut [0; RETURN_ROOM], &mut [0])
    }

    /// Both ways of asking, on rows that the same draw makes: the number, the stock row
    /// that it is about, and the trees of what is accepted.
    fn answers(
        make: fn(usize, &mut Rng) -> Made,
        index: usize,
    ) -> (u16, Result<u32, (u32, usize)>) {
        let (how, rows) = make(index, &mut Rng::for_input(222, index as u64));
        let bytes = rows.to_bytes();
        let block = bytes.chunks(BLOCK).position(|block| block[0] == 2);
        let first = 12 * block.expect("stock");
        let edition = rows.edition;
        let verdict = judge(&bytes);
        assert_eq!(written(&lists_of((how, rows))), verdict.answer());
        let answer = match verdict {
            Verdict::Accepted(counts) => Ok(counts.scattered),
            Verdict::Refused(refusal) => Err((refusal.number, refusal.place as usize - first)),
        };
        (edition, answer)
    }

    #[test]
    fn every_row_counts() {
        for index in 0..EACH {
            let (edition, answer) = answers(each_row, index);
            let due = if edition == 3 {
                Err((14, index / 3))
            } else {
                Ok(1)
            };
            assert_eq!(answer, due, "{index}");
        }
    }

    /// "code 2 or above stays 6"
    #[test]
    fn every_code_by_itself() {
        for index in 0..CODES {
            let (edition, answer) = answers(each_code, index);
            match (edition, index / 3) {
                (_, 0) => assert_eq!(answer, Ok(0)),
                (3, 1) => assert_eq!(answer.map_err(|(number, _)| number), Err(14)),
                (_, 1) => assert_eq!(answer, Ok(1)),
                _ => assert_eq!(answer.map_err(|(number, _)| number), Err(6)),
            }
        }
    }

    #[test]
    fn they_are_counted() {
        for index in 0..HOW_MANY {
            let (edition, answer) = answers(so_many, index);
            let count = (index / 3) as u32;
            match edition {
                3 if count > 0 => assert_eq!(answer.map_err(|(number, _)| number), Err(14)),
                _ => assert_eq!(answer, Ok(count)),
            }
        }
    }

    /// Of two the lower place; with a code that there isn't the other is given, wherever it
    /// stands.
    #[test]
    fn the_lower_place_and_6_first() {
        for index in 0..PAIRS {
            let (how, rows) = each_pair(index, &mut Rng::for_input(222, index as u64));
            let codes: Vec<u32> = rows.stock.iter().map(|row| row[UNIT_CODE]).collect();
            let none = codes.iter().position(|&code| code > 1);
            let trees = codes.iter().position(|&code| code == 1).expect("trees");
            let due = none.map_or((14, trees), |none| (6, none));
            assert_eq!(answers(each_pair, index).1, Err(due), "{how}");
        }
    }

    /// "straight after 6": 1 to 6, and 10 in writing, come before it; 7, 12 and 13 after.
    #[test]
    fn the_first_number_shows() {
        let first = |other: u32| {
            if [7, 12, 13].contains(&other) {
                14
            } else {
                other
            }
        };
        let mut others = 0;
        for index in 0..WITH_14 {
            let case = with_14(index, &mut Rng::for_input(223, index as u64));
            let (due, given) = (
                first(OTHERS[index % OTHERS.len()]),
                judge(&case.bytes).answer(),
            );
            // A block or a record more may be good, or at fault with its id only.
            let later = due == 4 && (given == 0 || given / 1000 > 4);
            assert!(given / 1000 == due || later, "{}", case.how);
            others += u32::from(later);
        }
        assert!(others < TRIES as u32 / 4, "{others}");
        for index in 0..WITH_14_WRITING {
            let lists = written_with_14(index, &mut Rng::for_input(224, index as u64));
            let due = first(OTHERS_WRITING[index % OTHERS_WRITING.len()]);
            assert_eq!(written(&lists) / 1000, due, "{}", lists.how);
        }
    }
}
