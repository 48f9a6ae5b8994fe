//! Returns, and rows for the writer, made for the sake of number 13 (02, §11): soil types
//! whose two area sums are alike, by themselves or only in the sum, or not alike.

use crate::case::Case;
use crate::lists::RowLists;
use crate::make::{area_sums, move_area, unbalance, Rows};
use crate::make::{LAND_SYSTEM, SOIL_AREAS, SOIL_TYPE};
use crate::rng::Rng;

/// A random return of this kind.
pub fn case(rng: &mut Rng) -> Case {
    let (how, rows) = drawn(rng);
    let bytes = rows.to_bytes();
    Case { how, bytes }
}

/// The same as rows for the writer.
pub fn lists(rng: &mut Rng) -> RowLists {
    let (how, rows) = drawn(rng);
    RowLists::of(how, &rows)
}

fn drawn(rng: &mut Rng) -> (String, Rows) {
    let mut rows = Rows::good_later(rng, 2);
    let how = match rng.below(9) {
        0 => "even",
        1 | 2 => {
            chain(rng, &mut rows);
            "even only in the sum"
        }
        3 => {
            chain(rng, &mut rows);
            let at = rng.below(rows.soil.len());
            let area = rng.pick(&SOIL_AREAS);
            move_area(&mut rows.soil[at], area, 1);
            "one off in the sum"
        }
        4 | 5 => {
            two_types(rng, &mut rows);
            "two types"
        }
        6 => {
            by_land(rng, &mut rows);
            "even by land systems"
        }
        _ => unbalance(rng, &mut rows.soil),
    };
    let how = format!(
        "soils {how}, {} types, edition {}, {:?} rows",
        area_sums(&rows.soil).len(),
        rows.edition,
        rows.counts()
    );
    (how, rows)
}

/// All rows of one type, each with the area twenty years ago that the next one has now:
/// the sums are alike behind the last row and hardly ever before.
fn chain(rng: &mut Rng, rows: &mut Rows) {
    let own = rng.pick(&[0, 1, 7, 256, 65_535]);
    let [now, then] = SOIL_AREAS;
    let count = rows.soil.len();
    let areas: Vec<u32> = (0..count).map(|_| rng.from_to(0, 100_000)).collect();
    for (nth, row) in rows.soil.iter_mut().enumerate() {
        row[SOIL_TYPE] = own;
        row[now] = areas[nth];
        row[then] = areas[(nth + 1) % count];
    }
}

/// A chain whose rows are all of one land system, and of two types.
fn by_land(rng: &mut Rng, rows: &mut Rows) {
    chain(rng, rows);
    let border = 1 + rng.below(rows.soil.len() - 1);
    let others = rng.pick(&[2, 300, 65_534]);
    for (nth, row) in rows.soil.iter_mut().enumerate() {
        row[LAND_SYSTEM] = row[SOIL_TYPE];
        if nth >= border {
            row[SOIL_TYPE] = others;
        }
    }
}

/// Two types that are not alike in any way that they can be: the lower one behind the
/// higher or before it, and each, one or none of them uneven.
fn two_types(rng: &mut Rng, rows: &mut Rows) {
    let types = rng.pick(&[[0, 1], [0, 65_535], [3, 4], [255, 256], [65_534, 65_535]]);
    let lower_first = rng.one_in(2);
    let count = rows.soil.len();
    let border = 1 + rng.below(count - 1);
    for (nth, row) in rows.soil.iter_mut().enumerate() {
        row[SOIL_TYPE] = types[usize::from((nth < border) != lower_first)];
    }
    rows.even_soils(rng, SOIL_AREAS[0]);
    let area = rng.pick(&SOIL_AREAS);
    let by = rng.pick(&[1, 1, 2, 99]);
    // Not the first row of its type, which may be even by itself.
    for at in [border - 1, count - 1] {
        if !rng.one_in(3) {
            move_area(&mut rows.soil[at], area, by);
        }
    }
}

#[cfg(test)]
mod tests {
    use super::*;
    use crate::judge::judge;
    use crate::kinds::RETURN_ROOM;
    use crate::make::{uneven_type, BLOCK};

    /// Uneven types are all that any of them is refused by, and each sort comes often.
    #[test]
    fn they_are_refused_by_13_alone() {
        let [mut even, mut uneven] = [0; 2];
        for index in 0..8_000 {
            let (how, rows) = drawn(&mut Rng::for_input(205, index));
            let bytes = rows.to_bytes();
            let first = bytes.chunks(BLOCK).position(|block| block[0] == 7);
            let first = 12 * first.expect("soils");
            let due = match uneven_type(&rows.soil) {
                None => 0,
                Some((_, row)) => 13_000 + (first + row) as u32,
            };
            assert_eq!(judge(&bytes).answer(), due, "{how}");
            let lists = RowLists::of(how, &rows);
            let answer = lists.write(&mut [0; RETURN_ROOM], &mut [0]);
            assert_eq!(answer, due, "{}", lists.how);
            *(if due == 0 { &mut even } else { &mut uneven }) += 1;
        }
        assert!(even > 2_000 && uneven > 3_000, "{even} {uneven}");
    }
}
