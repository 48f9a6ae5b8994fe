//! Rows for texts: good ones, few or many, and those that writing refuses.

use crate::kinds::KINDS;
use crate::lists::Lists;
use crate::make::{fields, Rows, ALL_EDITIONS, FIRST_WITH_IDS, LATER_EDITIONS};
use crate::make::{UNIT_CODE, WITHOUT_TREES, WITH_IDS};
use crate::rng::Rng;
use crate::rowlists::UNKNOWN_EDITIONS;
use crate::spoil::{any_field, spoil, value, VALUES};

/// Good rows as an edition and lists.
pub fn good(rng: &mut Rng) -> (u32, Lists) {
    let rows = good_rows(rng);
    (rows.edition.into(), rows.lists())
}

/// Good rows: mostly a few, now and then any number or all.
pub fn good_rows(rng: &mut Rng) -> Rows {
    match rng.below(60) {
        0 => {
            let edition = rng.pick(&ALL_EDITIONS);
            rows_in(rng, edition, |_| 32)
        }
        1 | 2 => Rows::any_good(rng),
        3 => {
            let edition = rng.pick(&ALL_EDITIONS);
            rows_in(rng, edition, |_| 0)
        }
        _ => {
            let edition = rng.pick(&ALL_EDITIONS);
            rows_in(rng, edition, |rng| rng.pick(&[0, 0, 0, 1, 1, 2, 3]))
        }
    }
}

/// Good rows of an edition, so many of each of its kinds with ids as are drawn.
fn rows_in(rng: &mut Rng, edition: u16, draw: impl Fn(&mut Rng) -> usize) -> Rows {
    let mut counts = WITH_IDS.map(|_| draw(rng));
    if edition == 1 {
        counts[FIRST_WITH_IDS..].fill(0);
    }
    Rows::good_in(rng, edition, counts)
}

/// Rows in which any number can be broken: two and more of each kind.
fn to_be_spoiled(rng: &mut Rng, number: u32) -> Rows {
    let edition = match number {
        13 => rng.pick(&LATER_EDITIONS),
        14 => WITHOUT_TREES,
        _ => rng.pick(&ALL_EDITIONS),
    };
    let many = rng.one_in(12);
    rows_in(rng, edition, |rng| match many {
        true => rng.pick(&[11, 12, 13, 25, 32]),
        false => rng.pick(&[2, 2, 2, 3]),
    })
}

/// Rows that are refused by one number, or by one of two, with a word on how.
pub fn unwritten(rng: &mut Rng) -> (String, u32, Lists) {
    let number = rng.pick(&[5, 6, 6, 7, 10, 10, 10, 12, 13, 14]);
    if number == 10 {
        return by_number_10(rng);
    }
    let mut rows = to_be_spoiled(rng, number);
    let mut how = spoiled(rng, &mut rows, number);
    if rng.one_in(4) {
        // 13 has soils in the later editions alone, and 14 trees in the last.
        let other = rng.pick(match rows.edition {
            1 => &[5, 6, 7],
            WITHOUT_TREES => &[5, 6, 7, 14],
            _ => &[5, 6, 7, 6],
        });
        how += &format!(", {}", spoiled(rng, &mut rows, other));
    }
    (how, rows.edition.into(), rows.lists())
}

fn spoiled(rng: &mut Rng, rows: &mut Rows, number: u32) -> String {
    if number == 6 {
        far_above(rng, rows)
    } else {
        spoil(rng, rows, number)
    }
}

/// A value above its limit, of any width. A unit is a word, and can't be above.
fn far_above(rng: &mut Rng, rows: &mut Rows) -> String {
    let mut drawn = std::iter::repeat_with(|| any_field(rng, rows));
    let (kind, row, field) = drawn
        .find(|&(kind, _, field)| (kind, field) != (2, UNIT_CODE))
        .expect("most fields are no unit");
    drop(drawn);
    let limit = fields(kind)[field].most;
    let which = rng.below(VALUES);
    let value = value(which, limit, rng).max(limit + 1);
    rows.row(kind, row)[field] = value;
    format!("6: {value} at kind {kind} row {row} field {field}")
}

/// An edition that there isn't, no parameters or several, or rows of a kind that edition 1
/// doesn't have.
fn by_number_10(rng: &mut Rng) -> (String, u32, Lists) {
    let rows = good_rows(rng);
    let (mut edition, mut lists) = (u32::from(rows.edition), rows.lists());
    let way = rng.below(3);
    let mut how = String::from("10");
    if way == 0 || rng.one_in(8) {
        edition = match rng.below(4) {
            0 => rng.word().max(4),
            _ => rng.pick(&UNKNOWN_EDITIONS),
        };
        how += &format!(", edition {edition}");
    }
    if way == 1 || rng.one_in(8) {
        let times = rng.pick(&[0, 0, 2, 2, 3, 31, 32]);
        lists[3] = lists[3].repeat(times);
        how += &format!(", parameters {times} times");
    }
    if way == 2 {
        // One of the later kinds, or several.
        edition = 1;
        let later = rng.pick(&LATER_EDITIONS);
        let others = rows_in(rng, later, |rng| rng.pick(&[1, 1, 2, 3, 32])).lists();
        let first = 4 + rng.below(KINDS.len() - 4);
        let alone = rng.one_in(2);
        for kind in 4..KINDS.len() {
            lists[kind].clear();
            if kind == first || (kind > first && !alone) {
                lists[kind] = others[kind].clone();
            }
        }
        how += &format!(", kind {} in edition 1", first + 1);
    }
    (how, edition, lists)
}
