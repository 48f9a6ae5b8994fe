//! Returns, and rows for the writer, made for the sake of number 12 (02, §8): as much
//! wood cleared as used, a little more or less, and much more.

use crate::case::Case;
use crate::lists::RowLists;
use crate::make::Rows;
use crate::rng::Rng;
use crate::spoil::spoil_clearing;

/// What is left of L without 100 K, near zero and near the hundreds that K goes by.
const BESIDE: [i64; 8] = [-101, -100, -99, -2, 2, 99, 100, 101];

/// A random return of this kind.
pub fn case(rng: &mut Rng) -> Case {
    let (how, rows) = drawn(rng);
    let bytes = rows.to_bytes();
    Case { how, bytes }
}

/// The same as rows for the writer.
pub fn lists(rng: &mut Rng) -> RowLists {
    let (how, rows) = drawn(rng);
    RowLists::of(how, &rows)
}

fn drawn(rng: &mut Rng) -> (String, Rows) {
    let mut rows = Rows::good_from(rng, 1);
    match rng.below(9) {
        way @ 0..7 => {
            let more = [0, 0, 1, 1, -1, -1, -1][way];
            rows.balance(rng, more);
        }
        7 => {
            let more = rng.pick(&BESIDE);
            rows.balance(rng, more);
        }
        _ => drop(spoil_clearing(rng, &mut rows)),
    }
    // Nothing used at all is also no harvest row.
    let [used, _] = rows.used_and_cleared();
    if used == 0 && rng.one_in(2) {
        rows.harvest.clear();
    }
    let [used, cleared] = rows.used_and_cleared();
    let how = format!(
        "used {used}, cleared {cleared}, edition {}, {:?} rows",
        rows.edition,
        rows.counts()
    );
    (how, rows)
}

#[cfg(test)]
mod tests {
    use super::*;
    use crate::judge::judge;
    use crate::kinds::RETURN_ROOM;

    /// L above 100 K is all that any of them is refused by, and each sort comes often.
    #[test]
    fn they_are_refused_by_12_alone() {
        let mut came = [0; 4];
        for index in 0..8_000 {
            let (how, rows) = drawn(&mut Rng::for_input(171, index));
            let [used, cleared] = rows.used_and_cleared().map(|sum| sum as i128);
            let due = if cleared > used { 12_000 } else { 0 };
            assert_eq!(judge(&rows.to_bytes()).answer(), due, "{how}");
            let lists = RowLists::of(how, &rows);
            let answer = lists.write(&mut [0; RETURN_ROOM], &mut [0]);
            assert_eq!(answer, due, "{}", lists.how);
            match cleared - used {
                1 => came[0] += 1,
                0 => came[1] += 1,
                -1 => came[2] += 1,
                _ => came[3] += 1,
            }
        }
        assert!(came.iter().all(|&times| times > 1_000), "{came:?}");
    }
}
