//! Texts of about the greatest length.

use super::sheet::{Line, Sheet};
use crate::rng::Rng;
use crate::typed::MOST_BYTES;

/// A length near the greatest, mostly one of the two beside the border.
pub fn length(rng: &mut Rng) -> usize {
    match rng.below(8) {
        0..3 => MOST_BYTES,
        3..6 => MOST_BYTES + 1,
        6 => MOST_BYTES - 1 - rng.below(40),
        _ => MOST_BYTES + 2 + rng.below(300),
    }
}

/// Fills a text up to this length, in a way that leaves a good one good: with what is passed
/// over, or inside a row where nothing counts.
pub fn fill(rng: &mut Rng, sheet: &Sheet, bytes: &mut Vec<u8>, length: usize) -> String {
    let more = length.saturating_sub(bytes.len());
    let mark = if sheet.style.marked { 3 } else { 0 };
    // Behind the first line, or the mark, or at the end.
    let first = bytes.iter().position(|&byte| byte == b'\n');
    let first = first.map_or(bytes.len(), |at| at + 1);
    let is_row = matches!(sheet.lines.last(), Some(Line::Row(..) | Line::Edition(_)));
    let way = rng.below(6);
    let (at, filler, how) = match way {
        0 => (mark, vec![b'\n'; more], "empty lines first"),
        1 => (first, vec![b'\n'; more], "empty lines"),
        2 if more > 2 => (first, note(more), "a note"),
        3 if is_row && !sheet.style.ended => {
            let separator = sheet.style.separator;
            (bytes.len(), vec![separator; more], "empty fields")
        }
        4 if sheet.style.ended => (bytes.len(), vec![b' '; more], "blanks"),
        _ => {
            let zeros = vec![b'0'; more];
            // Before a digit that begins a number: behind a separator.
            let begins = |pair: &[u8]| pair[0] == sheet.style.separator && pair[1].is_ascii_digit();
            let numbers = bytes.windows(2).enumerate();
            let numbers: Vec<usize> = numbers
                .filter(|(_, pair)| begins(pair))
                .map(|(at, _)| at + 1)
                .collect();
            match numbers.is_empty() {
                true => (mark, vec![b' '; more], "blanks first"),
                false => (rng.pick(&numbers), zeros, "zeros"),
            }
        }
    };
    bytes.splice(at..at, filler);
    format!(", {} bytes by {how}", bytes.len())
}

fn note(length: usize) -> Vec<u8> {
    let mut note = vec![b'x'; length];
    note[0] = b'#';
    note[length - 1] = b'\n';
    note
}
