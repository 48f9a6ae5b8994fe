//! A maker of rows for the writer: good ones, lengths that are no whole number
//! of rows, too many or don't add up, editions that there aren't or that don't
//! have a kind, wood that is cleared and used nearly alike, soils that are nearly even,
//! scattered trees, and each rule broken alone and beside others.

use crate::kinds::KINDS;
use crate::lists::{Lists, RowLists};
use crate::make::{fields, Rows, LATER_EDITIONS, SOIL_TYPE};
use crate::rng::Rng;
use crate::spoil::{any_field, spoil, to_be_spoiled, value, SPOILED, VALUES};
use crate::{clearings, plots, trees};

/// Random rows with their lengths.
pub fn case(rng: &mut Rng) -> RowLists {
    match rng.below(28) {
        0..5 => RowLists::of("good".to_string(), &Rows::any_good(rng)),
        5..12 => {
            let number = rng.pick(&[5, 6, 7, 7, 10, 10, 10, 10, 12, 13, 14]);
            broken(rng, &[number])
        }
        12 => {
            let mut made = RowLists::of("good".to_string(), &Rows::any_good(rng));
            move_border(rng, &mut made);
            made
        }
        13..18 => {
            let first = rng.pick(&[5, 6, 7, 10, 12, 14]);
            let later = rng.pick(&[5, 6, 7, 12, 13, 14]);
            broken(rng, &[first, later])
        }
        18 => {
            let number = rng.pick(&[5, 6, 7, 14]);
            broken(rng, &[number; 4])
        }
        19 | 20 => {
            let numbers = some_of(rng, &[5, 6, 7, 12, 13, 14], 4);
            let mut made = broken(rng, &numbers);
            break_edition(rng, &mut made);
            made
        }
        21 | 22 => clearings::lists(rng),
        23 | 24 => plots::lists(rng),
        25 | 26 => trees::lists(rng),
        _ => {
            let numbers = some_of(rng, &[5, 6, 7, 10, 12, 13, 14], 2);
            broken(rng, &numbers)
        }
    }
}

/// Each of these numbers, or not: one in so many.
fn some_of(rng: &mut Rng, numbers: &[u32], one_in: usize) -> Vec<u32> {
    let taken = numbers.iter().filter(|_| rng.one_in(one_in));
    taken.copied().collect()
}

/// Breaks these numbers; 10 goes last, because it may take the rows' order.
pub fn broken(rng: &mut Rng, numbers: &[u32]) -> RowLists {
    let mut rows = to_be_spoiled(rng, numbers);
    let mut how = String::from("broken");
    let times = |number: u32| numbers.iter().filter(move |&&other| other == number);
    for &number in SPOILED.into_iter().flat_map(times) {
        if number == 6 && rng.one_in(2) {
            how += &far_above(rng, &mut rows);
        } else {
            how += &format!(", {}", spoil(rng, &mut rows, number));
        }
    }
    let edition = u32::from(rows.edition);
    let mut lists = rows.lists();
    if !numbers.contains(&10) {
        return RowLists::joined(how, edition, &lists);
    }
    // One kind, two of them, the lengths as a whole, or one and the whole.
    let ways = rng.below(5);
    let kinds = [1, 1, 2, 0, 1][ways];
    for _ in 0..kinds {
        how += &break_list(rng, &mut lists);
    }
    let mut made = RowLists::joined(how, edition, &lists);
    if ways >= 3 {
        break_lengths(rng, &mut made);
    }
    made
}

/// A value that its field has no width for, or that only its limit forbids.
fn far_above(rng: &mut Rng, rows: &mut Rows) -> String {
    let (mut kind, mut row, mut field) = any_field(rng, rows);
    let (which, soils) = (rng.below(VALUES), rows.soil.len());
    if soils > 0 && rng.one_in(8) {
        // A number that two bytes would take for another.
        (kind, row, field) = (7, rng.below(soils), SOIL_TYPE);
    }
    let limit = fields(kind)[field].most;
    let value = value(which, limit, rng).max(limit + 1);
    rows.row(kind, row)[field] = value;
    format!(", 6: {value} at kind {kind} row {row} field {field}")
}

/// Editions that there aren't. Some look like 1, 2 or 3 to a reader of 8 or 16 bits.
#[rustfmt::skip]
pub const UNKNOWN_EDITIONS: [u32; 21] = [
    0, 4, 5, 255, 256, 257, 258, 259, 512, 65_535, 65_536, 65_537, 65_538, 65_539,
    1 << 24, 1 << 31, (1 << 31) + 1, (1 << 31) + 2, (1 << 31) + 3, u32::MAX - 1, u32::MAX,
];

/// Another edition: one that there isn't, 1, which has no kinds above 4, or 3, which has
/// no scattered trees.
fn break_edition(rng: &mut Rng, made: &mut RowLists) {
    let any = rng.from_to(4, u32::MAX);
    made.edition = match rng.below(4) {
        0 => any,
        1 => rng.pick(&UNKNOWN_EDITIONS),
        _ if made.edition == 1 => rng.pick(&LATER_EDITIONS).into(),
        _ => rng.pick(&[1, 1, 5 - made.edition]),
    };
    made.how += &format!(", edition {}", made.edition);
}

/// Breaks number 10 at one kind, by the length of its list alone.
fn break_list(rng: &mut Rng, lists: &mut Lists) -> String {
    let kind = rng.below(KINDS.len());
    let (list, layout) = (&mut lists[kind], &KINDS[kind]);
    let (width, rows) = (layout.numbers, list.len() / layout.numbers);
    let one_more = width * (layout.most_rows + 1);
    let length = match rng.below(4) {
        // Elements too many, or too few, for whole rows.
        0 => width * rows + 1 + rng.below(width - 1),
        1 => (width * rows)
            .saturating_sub(1 + rng.below(width - 1))
            .max(1),
        2 if layout.least_rows > 0 && rng.one_in(2) => 0,
        2 => one_more,
        _ => one_more + rng.below(40) * width + rng.below(2),
    };
    // Copies of a good row: the ids don't rise, but that is tried later.
    let pattern = list.clone();
    while list.len() < length {
        let more = pattern.get(list.len() % pattern.len().max(1));
        list.push(more.copied().unwrap_or(1));
    }
    list.truncate(length);
    format!(", 10: {} of length {length}", layout.name)
}

/// Breaks number 10 at place 0: not one length for each kind, or lengths that
/// don't add up to the area.
pub fn break_lengths(rng: &mut Rng, made: &mut RowLists) {
    let how = match rng.below(7) {
        0 => {
            made.lengths.truncate(rng.below(KINDS.len()));
            "lengths left out"
        }
        1 => {
            // The last kind's elements are counted with the one before it.
            let last = made.lengths.pop().expect("a length for each kind");
            *made.lengths.last_mut().expect("more than one kind") += last;
            "a length left out, the sum right"
        }
        2 => {
            let more = 1 + rng.below(3);
            made.lengths.resize(made.lengths.len() + more, 0);
            "lengths of zero more"
        }
        3 => {
            let more = 1 + rng.below(20);
            made.lengths.push(more as u32);
            made.rows.resize(made.rows.len() + more, 1);
            "a length more, the sum right"
        }
        4 => {
            let length = made.rows.len() + 1 + rng.below(20);
            made.rows.resize(length, 1);
            "an area too long"
        }
        5 if !made.rows.is_empty() => {
            let less = if rng.one_in(2) {
                1
            } else {
                1 + rng.below(made.rows.len())
            };
            made.rows.truncate(made.rows.len() - less);
            "an area too short"
        }
        _ => {
            wrap_sum(rng, &mut made.lengths);
            "a sum right in 32 bits only"
        }
    };
    made.how += &format!(", 10: {how}, lengths {:?}", made.lengths);
}

/// Other lengths whose sum is the same in 32 bits, but larger by 2^32 or more.
pub fn wrap_sum(rng: &mut Rng, lengths: &mut [u32]) {
    let wrapping = |sum: u32, &length: &u32| sum.wrapping_add(length);
    let right = lengths.iter().fold(0, wrapping);
    let last = rng.below(lengths.len());
    // One of the others at least so large that the last must go over the top.
    let large = (last + 1 + rng.below(lengths.len() - 1)) % lengths.len();
    let any = rng.one_in(2);
    for at in (0..lengths.len()).filter(|&at| at != last) {
        if at == large {
            lengths[at] = rng.from_to(right + 1, u32::MAX);
        } else if any {
            lengths[at] = rng.word();
        }
    }
    lengths[last] = 0;
    lengths[last] = right.wrapping_sub(lengths.iter().fold(0, wrapping));
}

/// Elements of one kind counted with a neighbour: the sum stays right. Between
/// stock and harvest the rows may stay whole, and be good.
fn move_border(rng: &mut Rng, made: &mut RowLists) {
    let border = rng.below(KINDS.len() - 1);
    let both = made.lengths[border] + made.lengths[border + 1];
    let step = rng.pick(&[1, KINDS[border].numbers as u32]);
    made.lengths[border] = rng.from_to(0, both / step) * step;
    made.lengths[border + 1] = both - made.lengths[border];
    made.how += &format!(", border moved: lengths {:?}", made.lengths);
}

#[cfg(test)]
#[path = "rowlists_tests.rs"]
mod tests;
