//! Rows by the two area sums of their soil types (02, §11), each row, each two types and
//! each other number in its turn: as returns, and for the writer.

use crate::case::Case;
use crate::lists::RowLists;
use crate::make::{move_area, Rows, MOST_AREA, MOST_ROWS, SOIL_AREAS, SOIL_TYPE, WITH_IDS};
use crate::mix;
use crate::rng::Rng;
use crate::rowlists;

/// What is left of the area now without that of twenty years ago.
const MORE: [i64; 5] = [-2, -1, 0, 1, 2];
/// One row, some, and the borders of their blocks.
const COUNTS: [usize; 7] = [1, 2, 12, 13, 24, 25, MOST_ROWS];
/// Types of one kind of list each.
const STYLES: usize = 4;
/// Every sum of every count, in every style.
pub const SUMS: usize = MORE.len() * COUNTS.len() * STYLES;
/// Every row, off by one either way in either area, in every style.
pub const EACH: usize = 4 * MOST_ROWS * STYLES;
/// Every two rows, each the only one that is not even, the lower type first or last.
pub const PAIRS: usize = 2 * MOST_ROWS * (MOST_ROWS - 1) / 2;
/// How often each other number is broken beside 13.
const TRIES: usize = 40;
/// Those that come before it when a return is judged, and when rows are written.
const BEFORE_13: [u32; 9] = [1, 2, 3, 4, 5, 6, 14, 7, 12];
const BEFORE_13_WRITING: [u32; 6] = [10, 5, 6, 14, 7, 12];
pub const WITH_13: usize = TRIES * BEFORE_13.len();
pub const WITH_13_WRITING: usize = TRIES * BEFORE_13_WRITING.len();

pub fn sums(index: usize, rng: &mut Rng) -> Case {
    return_of(summed(index, rng))
}

pub fn each(index: usize, rng: &mut Rng) -> Case {
    return_of(each_row(index, rng))
}

pub fn pairs(index: usize, rng: &mut Rng) -> Case {
    return_of(each_pair(index, rng))
}

/// Each number before 13, and 13 in the same return.
pub fn with_13(index: usize, rng: &mut Rng) -> Case {
    mix::broken(rng, &[BEFORE_13[index % BEFORE_13.len()], 13])
}

pub fn written_sums(index: usize, rng: &mut Rng) -> RowLists {
    lists_of(summed(index, rng))
}

pub fn written_each(index: usize, rng: &mut Rng) -> RowLists {
    lists_of(each_row(index, rng))
}

pub fn written_pairs(index: usize, rng: &mut Rng) -> RowLists {
    lists_of(each_pair(index, rng))
}

/// Each number that writing tries before 13, and 13 in the same rows.
pub fn written_with_13(index: usize, rng: &mut Rng) -> RowLists {
    let other = BEFORE_13_WRITING[index % BEFORE_13_WRITING.len()];
    rowlists::broken(rng, &[other, 13])
}

/// Rows and a short word on how they were made.
type Made = (String, Rows);

fn return_of((how, rows): Made) -> Case {
    let bytes = rows.to_bytes();
    Case { how, bytes }
}

fn lists_of((how, rows): Made) -> RowLists {
    RowLists::of(how, &rows)
}

/// Good rows with so many soils, whose types are of a style: one, two in turns, all
/// different and falling, or all different and rising.
fn drawn(rng: &mut Rng, soils: usize, style: usize) -> Rows {
    let mut counts = WITH_IDS.map(|_| rng.below(3));
    counts[5] = soils;
    let mut rows = Rows::good_in_later(rng, counts);
    let one = rng.pick(&[0, 1, 300, 65_535]);
    let step = rng.pick(&[1, 256, 2_000]);
    for (nth, row) in (0..).zip(&mut rows.soil) {
        row[SOIL_TYPE] = match style {
            0 => one,
            1 => [65_535, 0][nth as usize % 2],
            2 => 65_535 - step * nth,
            _ => step * nth,
        };
    }
    rows.even_soils(rng, SOIL_AREAS[0]);
    rows
}

/// A type that is off by so much, in one row.
fn summed(index: usize, rng: &mut Rng) -> Made {
    let (more, index) = (MORE[index % MORE.len()], index / MORE.len());
    let (count, style) = (COUNTS[index % COUNTS.len()], index / COUNTS.len());
    let mut rows = drawn(rng, count, style);
    let own = rows.soil[rng.below(count)][SOIL_TYPE];
    let [now, then] = SOIL_AREAS;
    let (up, down) = if more < 0 { (then, now) } else { (now, then) };
    let by = more.unsigned_abs() as u32;
    // A row of an even type has room above in the one or below in the other.
    for row in rows.soil.iter_mut().filter(|row| row[SOIL_TYPE] == own) {
        if row[up] + by <= MOST_AREA {
            row[up] += by;
            break;
        }
        if row[down] >= by {
            row[down] -= by;
            break;
        }
    }
    let how = format!("{count} soils, {more} more now of type {own}, style {style}");
    (how, rows)
}

fn each_row(index: usize, rng: &mut Rng) -> Made {
    let (area, by, index) = (SOIL_AREAS[index % 2], index / 2 % 2, index / 4);
    let (at, style) = (index % MOST_ROWS, index / MOST_ROWS);
    let mut rows = drawn(rng, MOST_ROWS, style);
    let value = &mut rows.soil[at][area];
    // Up where it can't go down, and the other way round.
    *value = match (by, *value) {
        (_, 0) => 1,
        (_, MOST_AREA) => MOST_AREA - 1,
        (0, value) => value + 1,
        (_, value) => value - 1,
    };
    let how = format!("soil {at} off by one in field {area}, style {style}");
    (how, rows)
}

/// Two rows of types of their own, all others of a type between or beside them.
fn each_pair(index: usize, rng: &mut Rng) -> Made {
    let (lower_first, mut nth) = (index.is_multiple_of(2), index / 2);
    let mut first = 0;
    while nth >= MOST_ROWS - 1 - first {
        nth -= MOST_ROWS - 1 - first;
        first += 1;
    }
    let second = first + 1 + nth;
    let mut rows = drawn(rng, MOST_ROWS, 0);
    let [low, high, other] = rng.pick(&[[1, 2, 0], [0, 65_535, 300], [254, 255, 256]]);
    rows.soil.iter_mut().for_each(|row| row[SOIL_TYPE] = other);
    let types = if lower_first {
        [low, high]
    } else {
        [high, low]
    };
    for (at, own) in [first, second].into_iter().zip(types) {
        rows.soil[at][SOIL_TYPE] = own;
    }
    rows.even_soils(rng, SOIL_AREAS[0]);
    for at in [first, second] {
        move_area(&mut rows.soil[at], SOIL_AREAS[0], 1);
    }
    let how = format!("soils {first} and {second} uneven, of types {types:?} among {other}");
    (how, rows)
}

#[cfg(test)]
mod tests {
    use super::*;
    use crate::judge::judge;
    use crate::kinds::RETURN_ROOM;
    use crate::make::BLOCK;

    fn sum(rows: &Rows, own: u32, area: usize) -> i64 {
        let same = rows.soil.iter().filter(|row| row[SOIL_TYPE] == own);
        same.map(|row| i64::from(row[area])).sum()
    }

    fn written(lists: &RowLists) -> u32 {
        lists.write(&mut [0; RETURN_ROOM], &mut [0])
    }

    /// The place of the first soil.
    fn first_soil(bytes: &[u8]) -> u32 {
        let block = bytes.chunks(BLOCK).position(|block| block[0] == 7);
        12 * block.expect("soils") as u32
    }

    /// Both ways of asking, on rows that the same draw makes. What is due is told by the
    /// rows: the soil, if there is one, whose place it is.
    fn answers(make: fn(usize, &mut Rng) -> Made, index: usize) -> (Rows, Option<usize>) {
        let (how, rows) = make(index, &mut Rng::for_input(206, index as u64));
        let bytes = rows.to_bytes();
        let answer = judge(&bytes).answer();
        let lists = lists_of((how, rows.clone()));
        assert_eq!(written(&lists), answer, "{}", lists.how);
        let at = (answer != 0).then(|| (answer - 13_000 - first_soil(&bytes)) as usize);
        (rows, at)
    }

    /// The first row of the type of this one.
    fn first_of_type(rows: &Rows, own: u32) -> usize {
        let first = rows.soil.iter().position(|row| row[SOIL_TYPE] == own);
        first.expect("a row of the type")
    }

    #[test]
    fn sums_are_refused_unless_alike() {
        for index in 0..SUMS {
            let more = MORE[index % MORE.len()];
            let (rows, at) = answers(summed, index);
            let off = |own: u32| {
                let [now, then] = SOIL_AREAS.map(|area| sum(&rows, own, area));
                now - then
            };
            match at {
                None => assert!(more == 0 && rows.soil.iter().all(|row| off(row[SOIL_TYPE]) == 0)),
                Some(at) => {
                    let own = rows.soil[at][SOIL_TYPE];
                    assert!(more != 0 && off(own) == more, "{index}");
                    assert_eq!(at, first_of_type(&rows, own));
                }
            }
        }
    }

    #[test]
    fn every_row_counts() {
        for index in 0..EACH {
            let off = index / 4 % MOST_ROWS;
            let (rows, at) = answers(each_row, index);
            assert_eq!(at, Some(first_of_type(&rows, rows.soil[off][SOIL_TYPE])));
        }
    }

    /// Of two uneven types the lower one, wherever it stands.
    #[test]
    fn the_lower_type_shows() {
        let mut places = [0; MOST_ROWS];
        for index in 0..PAIRS {
            let (rows, at) = answers(each_pair, index);
            let alone = |own: u32| rows.soil.iter().filter(|r| r[SOIL_TYPE] == own).count() == 1;
            let two = rows.soil.iter().enumerate();
            let two = two.filter(|(_, row)| alone(row[SOIL_TYPE]));
            let lowest = two.min_by_key(|(_, row)| row[SOIL_TYPE]);
            let (lowest, _) = lowest.expect("two of their own");
            assert_eq!(at, Some(lowest));
            places[lowest] += 1;
        }
        assert_eq!(places, [MOST_ROWS - 1; MOST_ROWS]);
    }

    /// "straight after 12": every other number comes before it.
    #[test]
    fn the_other_number_shows() {
        let mut others = 0;
        for index in 0..WITH_13 {
            let case = with_13(index, &mut Rng::for_input(208, index as u64));
            let (due, given) = (
                BEFORE_13[index % BEFORE_13.len()],
                judge(&case.bytes).answer(),
            );
            // A block or a record more may be good, or at fault with its id only.
            let later = due == 4 && (given == 0 || given / 1000 > 4);
            assert!(given / 1000 == due || later, "{}", case.how);
            others += u32::from(later);
        }
        assert!(others < TRIES as u32 / 4, "{others}");
        for index in 0..WITH_13_WRITING {
            let lists = written_with_13(index, &mut Rng::for_input(209, index as u64));
            let due = BEFORE_13_WRITING[index % BEFORE_13_WRITING.len()];
            assert_eq!(written(&lists) / 1000, due, "{}", lists.how);
        }
    }
}
