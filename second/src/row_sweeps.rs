//! Rows for the writer made one after the other, each count, length, value and
//! id in its turn.

use crate::families::Families;
use crate::kinds::KINDS;
use crate::lists::RowLists;
use crate::make::{drawn_counts, fields, limited, place_of, RowCounts, Rows};
use crate::make::{ALL_EDITIONS, FIRST_WITH_IDS, LATER_EDITIONS, LIMITED, MOST_ROWS, WITH_IDS};
use crate::order_sweeps::first_or_later;
use crate::rng::Rng;
use crate::rowlists::{wrap_sum, UNKNOWN_EDITIONS};
use crate::soil_sweeps::{written_each, written_pairs, written_sums, written_with_13};
use crate::soil_sweeps::{EACH, PAIRS, SUMS, WITH_13_WRITING};
use crate::spoil::{spoil_id, value, BAD_IDS, VALUES};
use crate::tree_sweeps;
use crate::wood_sweeps::{written_alone, written_balances, written_with_12};
use crate::wood_sweeps::{ALONE, BALANCES, WITH_12_WRITING};

/// More rows than are allowed, far enough to see 33, 34, 36 and 37.
const COUNTS: usize = MOST_ROWS + 6;

static FAMILIES: Families<RowLists> = Families(&[
    (COUNTS * WITH_IDS.len() * 2, counts),
    (2 * LENGTHS, lengths),
    (LIMITED * MOST_ROWS * VALUES, values),
    ((MOST_ROWS - 1) * WITH_IDS.len() * BAD_IDS.len(), ids),
    (EDITIONS * EDITION_TRIES, editions),
    (PARAMETER_ROWS * 8, parameter_rows),
    (LENGTH_COUNTS * 3 * 8, length_counts),
    (2 * AREAS, areas),
    (BALANCES, written_balances),
    (ALONE, written_alone),
    (WITH_12_WRITING, written_with_12),
    (SUMS, written_sums),
    (EACH, written_each),
    (PAIRS, written_pairs),
    (WITH_13_WRITING, written_with_13),
    (tree_sweeps::EACH, tree_sweeps::written_each),
    (tree_sweeps::CODES, tree_sweeps::written_codes),
    (tree_sweeps::HOW_MANY, tree_sweeps::written_how_many),
    (tree_sweeps::PAIRS, tree_sweeps::written_pairs),
    (tree_sweeps::WITH_14_WRITING, tree_sweeps::written_with_14),
    (WRAPS, wraps),
]);

/// How many inputs the sweeps have together.
pub fn size() -> usize {
    FAMILIES.size()
}

/// The `index`-th input of the sweeps.
pub fn case(index: usize, rng: &mut Rng) -> RowLists {
    FAMILIES.case(index, rng)
}

/// Every count of each kind, the other kinds empty or of any count.
fn counts(index: usize, rng: &mut Rng) -> RowLists {
    let (turn, alone) = (index / 2, index.is_multiple_of(2));
    let (count, place) = (turn / WITH_IDS.len(), turn % WITH_IDS.len());
    let mut counts = RowCounts::default();
    if !alone {
        counts = drawn_counts(rng, |rng| rng.below(MOST_ROWS + 1));
    }
    counts[place] = count;
    let rows = Rows::good_in_any(rng, counts);
    RowLists::of(format!("row counts {counts:?}"), &rows)
}

/// The lengths of a kind in their sweep: two rows and a bit too many.
const fn lengths_of(kind: usize) -> usize {
    KINDS[kind].numbers * (KINDS[kind].most_rows + 2) + 2
}

const LENGTHS: usize = {
    let (mut all, mut kind) = (0, 0);
    while kind < KINDS.len() {
        all += lengths_of(kind);
        kind += 1;
    }
    all
};

/// Every length of each kind, in edition 1 and in a later one: whole rows, cut in the
/// middle of a row, too many.
fn lengths(index: usize, rng: &mut Rng) -> RowLists {
    let (edition, mut index) = (first_or_later(index, rng), index / 2);
    let mut kind = 0;
    while index >= lengths_of(kind) {
        index -= lengths_of(kind);
        kind += 1;
    }
    let mut counts = [0; WITH_IDS.len()].map(|_| rng.below(4));
    if edition == 1 {
        counts[FIRST_WITH_IDS..].fill(0);
    }
    if let Some(place) = place_of(kind as u8 + 1) {
        counts[place] = index.div_ceil(KINDS[kind].numbers);
    }
    let mut lists = Rows::good_in(rng, edition, counts).lists();
    lists[kind].resize(index, 0);
    let how = format!("{} of length {index}, edition {edition}", KINDS[kind].name);
    RowLists::joined(how, u32::from(edition), &lists)
}

fn some_counts(rng: &mut Rng) -> RowCounts {
    drawn_counts(rng, |rng| rng.below(14))
}

/// Every field of every row with every value. Number 7 may be broken besides, or
/// instead.
fn values(index: usize, rng: &mut Rng) -> RowLists {
    let (which, rest) = (index % VALUES, index / VALUES);
    let (row, field) = (rest % MOST_ROWS, rest / MOST_ROWS);
    let (kind, field) = limited(field);
    // There is one row of parameters.
    let row = if kind == 4 { 0 } else { row };
    let mut counts = some_counts(rng);
    if let Some(place) = place_of(kind) {
        counts[place] = row + 1 + rng.below(MOST_ROWS - row);
    }
    let mut rows = Rows::good_in_any(rng, counts);
    let limit = fields(kind)[field].most;
    let value = value(which, limit, rng);
    rows.row(kind, row)[field] = value;
    if value <= limit {
        rows.make_good_again(rng, kind, field);
    }
    RowLists::of(
        format!("kind {kind} row {row} field {field}: {value}"),
        &rows,
    )
}

/// Every row with an id not above the one before, in every way.
fn ids(index: usize, rng: &mut Rng) -> RowLists {
    let (way, rest) = (BAD_IDS[index % BAD_IDS.len()], index / BAD_IDS.len());
    let (place, row) = (rest % WITH_IDS.len(), 1 + rest / WITH_IDS.len());
    let kind = WITH_IDS[place];
    let mut counts = some_counts(rng);
    counts[place] = row + 1 + rng.below(MOST_ROWS - row);
    let mut rows = Rows::good_in_any(rng, counts);
    spoil_id(&mut rows, kind, row, way);
    RowLists::of(format!("id {way:?} at kind {kind} row {row}"), &rows)
}

/// Those that there aren't, and those that there are.
const EDITIONS: usize = UNKNOWN_EDITIONS.len() + ALL_EDITIONS.len();
const EDITION_TRIES: usize = 40;

/// Every edition, with and without each of the kinds above 4.
fn editions(index: usize, rng: &mut Rng) -> RowLists {
    let (which, turn) = (index % EDITIONS, index / EDITIONS);
    let mut counts = some_counts(rng);
    for (bit, count) in counts[FIRST_WITH_IDS..].iter_mut().enumerate() {
        let some = 1 + rng.below(MOST_ROWS + 1);
        *count = (turn >> bit) % 2 * some;
    }
    let of = rng.pick(&LATER_EDITIONS);
    let mut made = RowLists::of(String::new(), &Rows::good_in(rng, of, counts));
    let unknown = UNKNOWN_EDITIONS.get(which).copied();
    made.edition = unknown.unwrap_or((EDITIONS - which) as u32);
    made.how = format!("row counts {counts:?} in edition {}", made.edition);
    made
}

/// None, one, two and more parameter rows.
const PARAMETER_ROWS: usize = 5;

fn parameter_rows(index: usize, rng: &mut Rng) -> RowLists {
    let count = index % PARAMETER_ROWS;
    let mut rows = Rows::any_good(rng);
    let row = rows.parameters[0];
    rows.parameters = vec![row; count];
    RowLists::of(format!("{count} parameter rows"), &rows)
}

/// From no length at all to twice as many as there are kinds.
const LENGTH_COUNTS: usize = 2 * KINDS.len() + 1;

/// Every number of lengths. Those beyond the kinds have elements of their own
/// or none, and the area is as long as all lengths say or as its rows are.
fn length_counts(index: usize, rng: &mut Rng) -> RowLists {
    let (count, way) = (index % LENGTH_COUNTS, index / LENGTH_COUNTS % 3);
    let rows = Rows::any_good(rng);
    let mut made = RowLists::of(format!("{count} lengths, way {way}"), &rows);
    let more = |_| {
        if way == 0 {
            1 + rng.below(20) as u32
        } else {
            0
        }
    };
    let more: Vec<u32> = (KINDS.len()..count).map(more).collect();
    made.lengths.extend(more);
    made.lengths.truncate(count);
    if way != 1 {
        let sum: u32 = made.lengths.iter().sum();
        made.rows.resize(sum as usize, 1);
    }
    made
}

/// How far the area is from the lengths' sum, at most.
const AREAS: usize = 40;

/// The area shorter and longer than its lengths say, by none, one and more.
fn areas(index: usize, rng: &mut Rng) -> RowLists {
    let mut made = RowLists::of(String::new(), &Rows::good_from(rng, 3));
    let (right, by) = (made.rows.len(), index / 2);
    let length = if index.is_multiple_of(2) {
        right - by
    } else {
        right + by
    };
    made.rows.resize(length, 1);
    made.how = format!("an area of {length} with lengths for {right}");
    made
}

/// Lengths whose 32-bit sum is the area's length, though their sum is not.
const WRAPS: usize = 200;

fn wraps(_: usize, rng: &mut Rng) -> RowLists {
    let mut made = RowLists::of(String::new(), &Rows::any_good(rng));
    wrap_sum(rng, &mut made.lengths);
    made.how = format!("lengths {:?} for {}", made.lengths, made.rows.len());
    made
}
