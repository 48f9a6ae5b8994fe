//! Unpacking: the rows of an accepted return as a text (rows as text, rule 13).

use crate::decimal::spelled;
use crate::judge::{check, Refusal};
use crate::kinds::KINDS;
use crate::lists::{rows_of, rows_of_kind};
use crate::units::{spelling, unit, Spelling, UNIT_WORDS};

/// More than the longest text has: 18,288 bytes, were every field of 32 rows of each kind as
/// long as it can be.
pub const UNPACK_ROOM: usize = 20_000;

/// The text of an accepted return: "`edition,N`, then for each kind that has rows a note line
/// [..] and a line for each row".
pub fn text(bytes: &[u8]) -> Result<String, Refusal> {
    let edition = check(bytes)?.counts.edition;
    let lists = rows_of(bytes);
    let mut text = format!("edition,{edition}\n");
    for (number, kind) in (1..).zip(&KINDS) {
        for (nth, row) in rows_of_kind(&lists, number).enumerate() {
            if nth == 0 {
                text += &note(number);
            }
            text += kind.name;
            for (field, &value) in row.iter().enumerate() {
                text += ",";
                text += &cell(number, field, &row[..field], value);
            }
            text += "\n";
        }
    }
    Ok(text)
}

/// "`# KIND` and for each field `,NAME` or `,NAME (UNIT)`"
fn note(number: u8) -> String {
    let kind = &KINDS[usize::from(number) - 1];
    let mut note = format!("# {}", kind.name);
    for (nth, field) in kind.fields.iter().enumerate() {
        note += ",";
        note += field.name;
        if let Some(unit) = unit(number, nth) {
            note += &format!(" ({unit})");
        }
    }
    note + "\n"
}

/// A field of a row with all its decimals, or the word of its unit.
pub fn cell(kind: u8, field: usize, before: &[u32], value: u32) -> String {
    match spelling(kind, field, before) {
        Spelling::Unit => UNIT_WORDS[value as usize].to_string(),
        Spelling::Decimals(decimals) => spelled(value, decimals),
    }
}

/// Unpacks a return, as C sees it: 0 with the text at the front of `room` and its number of
/// bytes in `size[0]`, or the refusal with both as they were: the return's as the judge gives
/// it, "last 9000".
pub fn unpack(bytes: &[u8], room: &mut [u8], size: &mut [u32]) -> u32 {
    let text = match text(bytes) {
        Ok(text) => text,
        Err(refusal) => return refusal.answer(),
    };
    match (room.get_mut(..text.len()), size.first_mut()) {
        (Some(front), Some(size)) => {
            front.copy_from_slice(text.as_bytes());
            *size = text.len() as u32;
            0
        }
        _ => 9000,
    }
}

#[cfg(test)]
#[path = "unpack_tests.rs"]
mod tests;
