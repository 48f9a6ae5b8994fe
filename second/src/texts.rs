//! A maker of texts of rows (rows as text): good ones in every style, each fault in each of
//! its ways, alone and beside others, rows that writing refuses, texts at the greatest
//! length, and texts damaged at random.

mod limits;
mod noise;
mod rows;
mod sheet;
mod wrong;

pub use sheet::Style;
pub use wrong::{Way, WAYS};

use crate::rng::Rng;
use crate::unpack;
use sheet::Sheet;

/// A text, and how it was made.
pub struct TextCase {
    pub how: String,
    /// Of the rows that it was made of.
    pub edition: u32,
    pub bytes: Vec<u8>,
    /// The style, where it has one.
    pub style: Option<Style>,
    /// The place among [`WAYS`] of the only fault that was brought about.
    pub way: Option<usize>,
}

/// A random text.
pub fn case(rng: &mut Rng) -> TextCase {
    match rng.below(125) {
        0..44 => good(rng),
        44..63 => unwritten(rng),
        63..93 => one_fault(rng),
        93..102 => several_faults(rng),
        102..105 => fault_and_unwritten(rng),
        105..117 => damaged(rng),
        117..124 => unpacked(rng),
        _ => long(rng),
    }
}

fn spelled(rng: &mut Rng, how: String, edition: u32, sheet: &Sheet) -> TextCase {
    TextCase {
        how,
        edition,
        bytes: sheet.bytes(rng),
        style: Some(sheet.style),
        way: None,
    }
}

/// Rows that can be written, in any style.
fn good(rng: &mut Rng) -> TextCase {
    let (edition, lists) = rows::good(rng);
    let sheet = Sheet::of(rng, edition, &lists);
    spelled(rng, format!("good, edition {edition}"), edition, &sheet)
}

/// Rows that writing refuses.
fn unwritten(rng: &mut Rng) -> TextCase {
    let (how, edition, lists) = rows::unwritten(rng);
    let sheet = Sheet::of(rng, edition, &lists);
    spelled(rng, how, edition, &sheet)
}

/// A good text with one fault.
fn one_fault(rng: &mut Rng) -> TextCase {
    let (edition, lists) = rows::good(rng);
    let mut sheet = Sheet::of(rng, edition, &lists);
    let nth = rng.below(WAYS.len());
    let way = &WAYS[nth];
    (way.bring)(rng, &mut sheet);
    let how = format!("{}: {}", way.number, way.name);
    let mut case = spelled(rng, how, edition, &sheet);
    case.way = Some(nth);
    case
}

/// Two or three faults: the lowest line shows, and in it the first.
fn several_faults(rng: &mut Rng) -> TextCase {
    let (edition, lists) = rows::good(rng);
    let mut sheet = Sheet::of(rng, edition, &lists);
    let how = bring_some(rng, &mut sheet);
    spelled(rng, how, edition, &sheet)
}

/// The same where the rows would not be written either.
fn fault_and_unwritten(rng: &mut Rng) -> TextCase {
    let (how, edition, lists) = rows::unwritten(rng);
    let mut sheet = Sheet::of(rng, edition, &lists);
    let how = how + &bring_some(rng, &mut sheet);
    spelled(rng, how, edition, &sheet)
}

fn bring_some(rng: &mut Rng, sheet: &mut Sheet) -> String {
    let mut how = String::from("several");
    // Now and then all of them in one row.
    sheet.pinned = rng.one_in(3).then(|| rng.below(8));
    for _ in 0..2 + rng.below(2) {
        let way = &WAYS[rng.below(WAYS.len())];
        (way.bring)(rng, sheet);
        how += &format!(", {}: {}", way.number, way.name);
    }
    how
}

/// A text with some of its bytes or lines changed.
fn damaged(rng: &mut Rng) -> TextCase {
    let (edition, lists) = rows::good(rng);
    let sheet = Sheet::of(rng, edition, &lists);
    let mut case = spelled(rng, String::new(), edition, &sheet);
    case.how = noise::damage(rng, &mut case.bytes);
    case
}

/// The text of a return as unpacking has it, and mostly damaged.
fn unpacked(rng: &mut Rng) -> TextCase {
    let rows = rows::good_rows(rng);
    let text = unpack::text(&rows.to_bytes()).expect("good rows");
    let mut bytes = text.into_bytes();
    let how = match rng.below(4) {
        0 => String::from("unpacked"),
        _ => format!("unpacked, {}", noise::damage(rng, &mut bytes)),
    };
    TextCase {
        how,
        edition: rows.edition.into(),
        bytes,
        style: None,
        way: None,
    }
}

/// A text of about the greatest length, good or not.
fn long(rng: &mut Rng) -> TextCase {
    let (edition, lists) = rows::good(rng);
    let mut sheet = Sheet::of(rng, edition, &lists);
    let mut how = String::new();
    if rng.one_in(4) {
        how = bring_some(rng, &mut sheet);
    }
    let more = limits::length(rng);
    let mut case = spelled(rng, how, edition, &sheet);
    case.how += &limits::fill(rng, &sheet, &mut case.bytes, more);
    case
}

#[cfg(test)]
#[path = "texts_tests.rs"]
mod tests;
