//! What the texts of a comparison say, counted: each number, each fault of number
//! 4, each number with each kind of row that it names, each field, and whether a
//! subtotal has no heaviest row, one or several.
//!
//! What a text doesn't say is read off the bytes once more, not asked of the
//! judge or of the sheets.

use crate::coverage::{Counters, Coverage, Due};
use crate::judge::Fault;
use crate::kinds::KINDS;
use crate::lists::{rows_in, rows_of};
use crate::make::{AFTER, BEFORE, BLOCK};
use std::cmp::Ordering;

const SUBTOTALS: [&str; 3] = ["on-site", "off-site", "decay"];
/// The rules on where a return may end: edition, whether the block's kind is
/// below 4, 4 or above, and the rule in the paper's words. "Edition 3 is otherwise
/// edition 2."
const ENDS: [(u8, Ordering, &str); 8] = [
    (1, Ordering::Equal, "kind 4 and not last"),
    (1, Ordering::Less, "last and not kind 4"),
    (2, Ordering::Equal, BEFORE_LOWER),
    (2, Ordering::Less, LAST_BELOW),
    (2, Ordering::Greater, NONE_BEFORE),
    (3, Ordering::Equal, BEFORE_LOWER),
    (3, Ordering::Less, LAST_BELOW),
    (3, Ordering::Greater, NONE_BEFORE),
];
const BEFORE_LOWER: &str = "kind 4 before a kind below 5";
const LAST_BELOW: &str = "a last block below kind 4";
const NONE_BEFORE: &str = "a kind above 4 with no kind 4 before it";
const EDITIONS: [&str; 3] = ["1", "2", "3"];

/// The numbers whose place is a row's, and the kinds whose rows can be at it with each.
const OF_ROWS: [(usize, &[&str]); 5] = [
    (
        5,
        &[
            "conversion",
            "stock",
            "harvest",
            "abandoned",
            "savanna",
            "soil",
            "crop",
        ],
    ),
    (6, &KIND_NAMES),
    (7, &["conversion"]),
    (13, &["soil"]),
    (14, &["stock"]),
];
/// As the texts name them.
const KIND_NAMES: [&str; KINDS.len()] = [
    "conversion",
    "stock",
    "harvest",
    "parameters",
    "abandoned",
    "savanna",
    "soil",
    "crop",
];

/// Acceptance, and the numbers that are explained.
const NUMBERS: [usize; 11] = [0, 1, 2, 3, 4, 5, 6, 7, 12, 13, 14];

/// Counters for all of it.
pub struct Reasons {
    /// By [`NUMBERS`].
    numbers: Counters,
    /// Each in each edition.
    faults: Counters,
    /// Blocks at fault with the end, by [`ENDS`].
    ends: Counters,
    /// A byte in a used record, in an unused one, and in the twenty behind them.
    strays: Counters,
    /// For each of [`OF_ROWS`] and each kind: a row of it, and one by its id.
    rows: Counters,
    /// The id before stands in the same block, and in the block before.
    ids: Counters,
    /// By kind, in the row's order.
    fields: [Counters; KINDS.len()],
    /// Rows with more than one field above its limit.
    several_fields: Counters,
    /// For each subtotal: no row, one, and a later one as heavy as the first.
    heaviest: Counters,
}

impl Reasons {
    /// So many of each are due, and of each number with each kind of row, but for
    /// what can't come.
    pub fn new(due: Due, due_rows: Due, coverage: &mut Coverage) -> Self {
        let numbers = NUMBERS.map(|number| format!("explained, number {number}"));
        let numbers = coverage.add(due, numbers);
        let faults = coverage.add(due, [""; 0]);
        for fault in Fault::ALL {
            let named = |edition| format!("fault {}, edition {edition}", fault.word());
            let can_come = fault != Fault::Fourth;
            coverage.add(if can_come { due } else { Due::Never }, EDITIONS.map(named));
        }
        let rows = coverage.add(due, [""; 0]);
        for (number, kinds) in OF_ROWS {
            for kind in KIND_NAMES {
                let name = format!("number {number}, {kind}");
                // With number 5 both ids stand among what clashes.
                let with_id = number != 5 && kind != "parameters";
                let or_never = |can_come| if can_come { due_rows } else { Due::Never };
                let can_come = kinds.contains(&kind);
                coverage.add(or_never(can_come), [name.clone()]);
                coverage.add(or_never(can_come && with_id), [name + ", by its id"]);
            }
        }
        let end =
            |(edition, _, rule): &(u8, Ordering, &str)| format!("end, edition {edition}, {rule}");
        let strays = ["a used record", "an unused record", "the twenty bytes"];
        let ids = ["the same block", "the block before"];
        Reasons {
            numbers,
            faults,
            rows,
            ends: coverage.add(due, ENDS.iter().map(end)),
            strays: coverage.add(due, strays.map(|place| format!("stray in {place}"))),
            ids: coverage.add(due, ids.map(|place| format!("id before in {place}"))),
            fields: KINDS.each_ref().map(|kind| {
                let first = coverage.add(due, [""; 0]);
                for field in kind.fields {
                    let can_come = field.can_exceed();
                    let name = format!("field {} of {}", field.name, kind.name);
                    coverage.add(if can_come { due } else { Due::Never }, [name]);
                }
                first
            }),
            several_fields: coverage.add(due, ["several fields"]),
            heaviest: coverage.add(
                due,
                SUBTOTALS.iter().flat_map(|name| {
                    ["none", "one row", "a tie"].map(|sort| format!("heaviest {name}, {sort}"))
                }),
            ),
        }
    }

    /// Counts the text that is due for these bytes.
    pub fn note(&self, bytes: &[u8], text: &[u8], coverage: &mut Coverage) {
        let text = std::str::from_utf8(text).expect("the text is ASCII");
        let lines: Vec<(&str, &str)> = text.lines().filter_map(|l| l.split_once(' ')).collect();
        let value = |name: &str| lines.iter().find(|line| line.0 == name).map(|line| line.1);
        let number_of = |name| value(name).and_then(|value| value.parse::<usize>().ok());
        let refused = value("refused").and_then(|value| value.split_once(' '));
        let Some((number, place)) = refused else {
            coverage.count(self.numbers, 0);
            return self.note_heaviest(bytes, coverage);
        };
        let [number, place] = [number, place].map(|word| word.parse().expect("a number"));
        let known = NUMBERS.iter().position(|&known| known == number);
        coverage.count(self.numbers, known.expect("a number that is explained"));
        if let Some(nth) = OF_ROWS.iter().position(|&(of_rows, _)| of_rows == number) {
            let kind = value("kind_name").expect("a kind is named");
            let kind = KIND_NAMES.iter().position(|&name| name == kind);
            let pair = KIND_NAMES.len() * nth + kind.expect("one of the kinds");
            coverage.count(self.rows, 2 * pair);
            // Right behind the kind's name; number 5 has `id_before` there.
            let behind = lines.iter().position(|line| line.0 == "kind_name");
            if behind
                .and_then(|at| lines.get(at + 1))
                .is_some_and(|line| line.0 == "id")
            {
                coverage.count(self.rows, 2 * pair + 1);
            }
        }
        match number {
            4 => {
                let words = Fault::ALL.map(Fault::word);
                let fault = words.iter().position(|&word| value("fault") == Some(word));
                let fault = fault.expect("one of the words");
                let edition = usize::from(bytes[6]) - 1;
                coverage.count(self.faults, EDITIONS.len() * fault + edition);
                let block = &bytes[BLOCK * place..BLOCK * (place + 1)];
                match Fault::ALL[fault] {
                    Fault::End => {
                        let broken = (bytes[6], block[0].cmp(&4));
                        let rule = ENDS.iter().position(|&(e, kind, _)| (e, kind) == broken);
                        coverage.count(self.ends, rule.expect("one of the rules"));
                    }
                    Fault::Stray => {
                        let offset = number_of("offset").expect("an offset is named");
                        let record = (offset - 8) / 40;
                        let behind = usize::from(record >= block[1].into());
                        coverage.count(self.strays, if record < 12 { behind } else { 2 });
                    }
                    _ => {}
                }
            }
            5 => coverage.count(self.ids, usize::from(place.is_multiple_of(12))),
            6 => {
                let block = &bytes[BLOCK * (place / 12)..];
                let record = &block[8 + 40 * (place % 12)..];
                let field = number_of("field").expect("a field is named");
                let kind = usize::from(block[0]) - 1;
                coverage.count(self.fields[kind], field);
                let above = KINDS[kind].fields.iter();
                if above
                    .filter(|field| field.number(record) > field.most)
                    .count()
                    > 1
                {
                    coverage.count(self.several_fields, 0);
                }
            }
            _ => {}
        }
    }

    fn note_heaviest(&self, bytes: &[u8], coverage: &mut Coverage) {
        let mut most = [0; SUBTOTALS.len()];
        let mut times = [0usize; SUBTOTALS.len()];
        for row in rows_in::<15>(&rows_of(bytes), 1) {
            for (code, part) in parts_of(row).into_iter().enumerate() {
                if part > most[code] {
                    (most[code], times[code]) = (part, 0);
                }
                times[code] += usize::from(part > 0 && part == most[code]);
            }
        }
        for (code, times) in times.into_iter().enumerate() {
            coverage.count(self.heaviest, 3 * code + times.min(2));
        }
    }
}

/// A conversion row's part of each subtotal.
fn parts_of(row: &[u32; 15]) -> [u64; SUBTOTALS.len()] {
    let row = row.map(u64::from);
    let [year, ten_years] =
        [0, 1].map(|period| row[BEFORE[period]].saturating_sub(row[AFTER[period]]));
    [
        row[1] * year * row[4] * row[5] * row[6],
        row[1] * year * row[7] * row[8] * row[9],
        row[10] * ten_years * row[13] * 1_000 * row[14],
    ]
}

#[cfg(test)]
#[path = "reasons_tests.rs"]
mod tests;
