//! Returns, and rows for the writer, made for the sake of scattered trees (02, §12): in
//! editions 1 and 2 they are "read, worked out and written as ever", in edition 3 they are
//! number 14, alone and beside other faults.

use crate::case::Case;
use crate::lists::RowLists;
use crate::make::{Rows, ALL_EDITIONS, TREES, UNIT_CODE, WITHOUT_TREES};
use crate::rng::Rng;
use crate::spoil::{spoil, spoil_limit, ABOVES};

/// A random return of this kind.
pub fn case(rng: &mut Rng) -> Case {
    let (how, rows) = drawn(rng);
    let bytes = rows.to_bytes();
    Case { how, bytes }
}

/// The same as rows for the writer.
pub fn lists(rng: &mut Rng) -> RowLists {
    let (how, rows) = drawn(rng);
    RowLists::of(how, &rows)
}

fn drawn(rng: &mut Rng) -> (String, Rows) {
    let edition = rng.pick(&[1, 2, 3, 3, 3, 3]);
    let mut rows = Rows::good_from_in(rng, edition, 2);
    let beside = beside(rng, &mut rows);
    // Of edition 3 one in eight without trees, which is good in itself.
    let trees = if rng.one_in(8) {
        "no more trees".to_string()
    } else {
        rows.plant(rng)
    };
    // Another edition of the same rows, as a department would change over.
    if rng.one_in(8) && rows.edition > 1 {
        rows.edition = rng.pick(&ALL_EDITIONS[1..]);
    }
    let other = match rng.below(14) {
        0 | 1 => {
            let at = rng.below(rows.stock.len());
            rows.stock[at][UNIT_CODE] = rng.pick(&[2, 2, 2, 3, 129, 255]);
            format!(", code {} at {at}", rows.stock[at][UNIT_CODE])
        }
        2 => above_limits(rng, &mut rows),
        _ => String::new(),
    };
    let how = format!(
        "{trees}{beside}{other}, edition {}, {:?} rows",
        rows.edition,
        rows.counts()
    );
    (how, rows)
}

/// Another fault, or none: those that come before 14, and those that come after.
fn beside(rng: &mut Rng, rows: &mut Rows) -> String {
    let number = rng.pick(&[0, 0, 0, 0, 0, 5, 6, 6, 7, 7, 12, 13]);
    if number == 0 || (number == 13 && rows.edition != WITHOUT_TREES) {
        return String::new();
    }
    format!(", {}", spoil(rng, rows, number))
}

/// The first row of trees with another field above its limit, if there is one.
fn above_limits(rng: &mut Rng, rows: &mut Rows) -> String {
    let trees = rows.stock.iter().position(|row| row[UNIT_CODE] == TREES);
    trees.map_or(String::new(), |at| {
        let (field, way) = (rng.pick(&[2, 3, 4]), rng.pick(&ABOVES));
        spoil_limit(rng, rows, (2, at, field), way);
        format!(", field {field} of {at} above its limit")
    })
}

#[cfg(test)]
mod tests {
    use super::*;
    use crate::judge::judge;
    use crate::kinds::RETURN_ROOM;
    use crate::make::BLOCK;

    /// The place of the first stock row.
    fn first_stock(bytes: &[u8]) -> u32 {
        let block = bytes.chunks(BLOCK).position(|block| block[0] == 2);
        12 * block.expect("stock") as u32
    }

    /// 14 is given in edition 3 with trees where neither 5 nor 6 is at fault, at the first
    /// of them; in no other edition, and each of the others often.
    #[test]
    fn they_are_refused_by_14_in_edition_3() {
        let mut given = [0; 15];
        for index in 0..12_000 {
            let (how, rows) = drawn(&mut Rng::for_input(221, index));
            let bytes = rows.to_bytes();
            let answer = judge(&bytes).answer();
            let lists = RowLists::of(how, &rows);
            let written = lists.write(&mut [0; RETURN_ROOM], &mut [0]);
            assert_eq!(written, answer, "{}", lists.how);
            let number = answer / 1000;
            given[number as usize] += 1;
            let trees = rows.stock.iter().position(|row| row[UNIT_CODE] == TREES);
            match (number, trees) {
                (5 | 6, _) => {}
                (14, Some(at)) => {
                    assert_eq!(rows.edition, WITHOUT_TREES);
                    assert_eq!(answer, 14_000 + first_stock(&bytes) + at as u32);
                }
                (_, Some(_)) => assert_ne!(rows.edition, WITHOUT_TREES, "{}", lists.how),
                (_, None) => assert_ne!(number, 14),
            }
        }
        for number in [0, 5, 6, 7, 12, 13, 14] {
            assert!(given[number] > 20, "{given:?}");
        }
        assert!(given[0] > 1_500 && given[14] > 3_000, "{given:?}");
    }
}
