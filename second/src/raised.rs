//! Two versions of a return (02, §9): "take two accepted returns with the same
//! conversion ids in the same order, where each area, fraction and density before of
//! the second is at least the first's, and each density after at most the first's".
//! And pairs of which this is not so in one field.

use crate::kinds::KINDS;
use crate::lists::{rows_in, Lists};
use crate::make::{Rows, AFTER, BEFORE, MOST_ROWS, SUMMED};
use crate::rng::Rng;
use crate::versions::Versions;
use crate::worst::{steep, Which};

/// A conversion row's numbers.
type Row = [u32; 15];
/// The positions in a row of all that is compared: everything but the id.
const COMPARED: std::ops::Range<usize> = 1..15;

/// How the first version's conversion rows came from the second's, which were there
/// before: taking from them is free of every limit.
#[derive(Clone, Copy, Debug, PartialEq, Eq)]
pub enum Way {
    /// They are the same.
    Same,
    /// One field of one row has less.
    OneField,
    /// One field has less, in every row.
    OneColumn,
    /// Many fields have less.
    Many,
}

pub const WAYS: [Way; 4] = [Way::Same, Way::OneField, Way::OneColumn, Way::Many];

/// Both versions, accepted.
pub struct Pair {
    pub how: String,
    pub way: Way,
    pub first: Vec<u8>,
    pub second: Vec<u8>,
    /// The field in which the second has not at least as much cleared, if there is one.
    pub broken: Option<usize>,
}

impl Versions for Pair {
    fn how(&self) -> &str {
        &self.how
    }

    fn first(&self) -> &[u8] {
        &self.first
    }

    fn second(&self) -> &[u8] {
        &self.second
    }
}

/// A random pair of which the premise holds.
pub fn pair(rng: &mut Rng) -> Pair {
    let (second, first, way) = versions(rng);
    finished(rng, first, second, (way, None))
}

/// A random pair of which it holds but for one field of one row.
pub fn broken_pair(rng: &mut Rng) -> Pair {
    loop {
        let (second, mut first, way) = versions(rng);
        let row = rng.below(second.conversion.len());
        let field = COMPARED.start + rng.below(COMPARED.len());
        let (older, newer) = (&mut first.conversion[row], &second.conversion[row]);
        if clear_more(rng, older, newer, field) {
            return finished(rng, first, second, (way, Some(field)));
        }
    }
}

/// The second version, and the first with less cleared in its conversion rows. "Nothing
/// is asked of the other kinds", so that these are often the first's own.
fn versions(rng: &mut Rng) -> (Rows, Rows, Way) {
    let second = newer(rng);
    let mut first = if rng.one_in(2) {
        second.clone()
    } else {
        Rows::any_good(rng)
    };
    first.conversion.clone_from(&second.conversion);
    let way = rng.pick(&WAYS);
    let column = COMPARED.start + rng.below(COMPARED.len());
    match way {
        Way::Same => {}
        Way::OneField => {
            let row = rng.below(first.conversion.len());
            clear_less(rng, &mut first.conversion[row], column);
        }
        Way::OneColumn => {
            for row in &mut first.conversion {
                clear_less(rng, row, column);
            }
        }
        Way::Many => {
            for row in &mut first.conversion {
                for field in COMPARED {
                    if rng.one_in(3) {
                        clear_less(rng, row, field);
                    }
                }
            }
        }
    }
    (second, first, way)
}

fn finished(
    rng: &mut Rng,
    mut first: Rows,
    mut second: Rows,
    (way, broken): (Way, Option<usize>),
) -> Pair {
    for rows in [&mut first, &mut second] {
        rows.cover_with_more(rng, 0);
    }
    let names = KINDS[0].fields;
    let broken_in = broken.map_or(String::new(), |field| {
        format!(", not in {}", names[field].name)
    });
    Pair {
        how: format!(
            "{way:?} of {} rows, editions {} and {}{broken_in}",
            second.conversion.len(),
            first.edition,
            second.edition
        ),
        way,
        first: first.to_bytes(),
        second: second.to_bytes(),
        broken,
    }
}

/// Rows with something to take from: any, nearly all at their limits, or with doubles
/// that round badly.
fn newer(rng: &mut Rng) -> Rows {
    match rng.below(4) {
        0 => {
            let (rows, which) = (1 + rng.below(MOST_ROWS), Which::any(rng));
            steep(rng, rows, which)
        }
        1 => {
            let mut rows = Rows::good_from(rng, 1);
            rows.conversion.iter_mut().for_each(|row| enlarge(rng, row));
            rows
        }
        _ => Rows::good_from(rng, 1),
    }
}

/// Everything at its limit, or a little below.
fn enlarge(rng: &mut Rng, row: &mut Row) {
    let below: &[u32] = if rng.one_in(2) {
        &[0]
    } else {
        &[0, 0, 0, 1, 7]
    };
    for field in COMPARED {
        let most = KINDS[0].fields[field].most;
        row[field] = most - rng.pick(below);
    }
    AFTER.iter().for_each(|&at| row[at] = rng.pick(below));
    // The three fractions together are at their limit.
    let mut left = 1_000;
    for at in SUMMED {
        row[at] = rng.pick(&[left, left, left / 2]);
        left -= row[at];
    }
    row[SUMMED[2]] += left;
}

/// A density after counts the other way round.
fn is_after(field: usize) -> bool {
    AFTER.contains(&field)
}

/// Takes from a field by one, by any number or all that there is. Nothing where there is
/// nothing to take.
fn clear_less(rng: &mut Rng, row: &mut Row, field: usize) {
    let most = KINDS[0].fields[field].most;
    let there = if is_after(field) {
        most - row[field]
    } else {
        row[field]
    };
    if there > 0 {
        let any = rng.from_to(1, there);
        let less = rng.pick(&[1, 1, any, there]);
        if is_after(field) {
            row[field] += less;
        } else {
            row[field] -= less;
        }
    }
}

/// Gives the first version's row more than the second's in one field, by one or by any
/// number. Whether the limits leave room for it.
fn clear_more(rng: &mut Rng, older: &mut Row, newer: &Row, field: usize) -> bool {
    let most = KINDS[0].fields[field].most;
    let room = if is_after(field) {
        newer[field]
    } else {
        most - newer[field]
    };
    if room == 0 {
        return false;
    }
    let any = rng.from_to(1, room);
    let more = rng.pick(&[1, any, any]);
    if is_after(field) {
        older[field] = newer[field] - more;
        return true;
    }
    older[field] = newer[field] + more;
    if SUMMED.contains(&field) {
        // The other two fractions give way: the first version may have less of them.
        let mut left = most - older[field];
        for at in SUMMED.into_iter().filter(|&at| at != field) {
            older[at] = older[at].min(left);
            left -= older[at];
        }
    }
    true
}

/// Where the premise does not hold: nothing where it does, and else the first row and
/// field. Different ids, or not as many, are field 0.
pub fn not_more_cleared(first: &Lists, second: &Lists) -> Option<(usize, usize)> {
    let [first, second]: [&[Row]; 2] = [rows_in(first, 1), rows_in(second, 1)];
    for (nth, (older, newer)) in first.iter().zip(second).enumerate() {
        let less = |&field: &usize| {
            if is_after(field) {
                newer[field] > older[field]
            } else {
                newer[field] < older[field]
            }
        };
        if older[0] != newer[0] {
            return Some((nth, 0));
        }
        if let Some(field) = COMPARED.into_iter().find(less) {
            return Some((nth, field));
        }
    }
    let same = first.len() == second.len();
    (!same).then_some((first.len().min(second.len()), 0))
}

/// Whether a version has a row that nothing more can be cleared in.
pub fn has_largest(lists: &Lists) -> bool {
    let most = |row: &Row, field: usize| {
        if is_after(field) {
            row[field] == 0
        } else {
            row[field] == KINDS[0].fields[field].most
        }
    };
    let largest = |row: &Row| {
        let summed: u32 = SUMMED.iter().map(|&at| row[at]).sum();
        let mut others = COMPARED.filter(|field| !SUMMED.contains(field));
        summed == 1_000 && others.all(|field| most(row, field))
    };
    rows_in(lists, 1).iter().any(largest)
}

/// The only field in which a version has more cleared than the other, if it is one.
pub fn only_raised(first: &Lists, second: &Lists) -> Option<usize> {
    let [first, second]: [&[Row]; 2] = [rows_in(first, 1), rows_in(second, 1)];
    let rows = || first.iter().zip(second);
    let mut raised = COMPARED.filter(|&field| rows().any(|(a, b)| a[field] != b[field]));
    raised.next().filter(|_| raised.next().is_none())
}

/// Whether a version has a period with more after than before.
pub fn has_thinner(lists: &Lists) -> bool {
    let thinner = |row: &Row| (0..2).any(|period| row[AFTER[period]] > row[BEFORE[period]]);
    rows_in(lists, 1).iter().any(thinner)
}

#[cfg(test)]
#[path = "raised_tests.rs"]
mod tests;
