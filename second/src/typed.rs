//! The edition and the rows that a text says, or its first fault (rows as text, rules 1 to 9).

use crate::cells::{behind_blanks, cells, is_passed_over, lines, used, SEPARATORS};
use crate::decimal::{units, whole, Wrong};
use crate::fault::{At, Fault, Sort};
use crate::kinds::KINDS;
use crate::lists::Lists;
use crate::units::{spelling, Spelling, UNIT_WORDS};

/// "A text above 131,072 bytes is fault 1 [..]. The byte order mark counts."
pub const MOST_BYTES: usize = 131_072;
/// The most rows of a kind, "parameters too".
const MOST_ROWS: usize = 32;
const EDITION: &[u8] = b"edition";

/// What a text without a fault says.
#[derive(Clone, Debug, PartialEq, Eq)]
pub struct Typed {
    pub edition: u32,
    pub separator: u8,
    /// Each kind's rows by themselves, as units.
    pub lists: Lists,
    /// The lines in which they stand, row by row.
    pub lines: [Vec<u32>; KINDS.len()],
}

/// Reads a text. "The lowest line at fault is answered", and none is looked at behind it.
pub fn typed(text: &[u8]) -> Result<Typed, Fault> {
    let at = |line| move |sort| Fault { line, sort };
    if text.len() > MOST_BYTES {
        return Err(at(0)(Sort::Long));
    }
    let mut lines = lines(text);
    let first = lines.find(|(_, line)| !is_passed_over(line, None));
    let (number, line) = first.ok_or(at(0)(Sort::Edition))?;
    let (edition, separator) = edition_of(line).map_err(at(number))?;
    let mut typed = Typed {
        edition,
        separator,
        lists: Lists::default(),
        lines: Default::default(),
    };
    let mut last_kind = 1;
    for (number, line) in lines.filter(|(_, line)| !is_passed_over(line, Some(separator))) {
        let kind = typed.add(number, line, last_kind).map_err(at(number))?;
        last_kind = kind;
    }
    Ok(typed)
}

/// The number and the separator of the edition line.
fn edition_of(line: &[u8]) -> Result<(u32, u8), Sort> {
    let (separator, rest) = behind_edition(line).ok_or(Sort::Edition)?;
    let fields: Vec<&[u8]> = cells(rest, separator).collect();
    let edition = whole(fields[0]).ok_or(Sort::Edition)?;
    match used(&fields) {
        1 => Ok((edition, separator)),
        found => Err(Sort::Fields { due: 1, found }),
    }
}

/// "behind leading blanks (spaces, tabs) the word `edition` (any letters, capital or not; or
/// the same in double quotes), then any spaces, then the separator": that, and what stands
/// behind it. "Where a tab separates, a tab before the word is no blank": it ends an empty
/// first field.
fn behind_edition(whole: &[u8]) -> Option<(u8, &[u8])> {
    let line = behind_blanks(whole, None);
    let tab_before = whole[..whole.len() - line.len()].contains(&b'\t');
    let unquoted = line.strip_prefix(b"\"");
    let (word, rest) = unquoted.unwrap_or(line).split_at_checked(EDITION.len())?;
    if !word.eq_ignore_ascii_case(EDITION) {
        return None;
    }
    let mut rest = match unquoted {
        Some(_) => rest.strip_prefix(b"\"")?,
        None => rest,
    };
    while let Some(behind) = rest.strip_prefix(b" ") {
        rest = behind;
    }
    let (&separator, rest) = rest.split_first()?;
    let begins = !(tab_before && separator == b'\t');
    (begins && SEPARATORS.contains(&separator)).then_some((separator, rest))
}

impl Typed {
    /// Adds the row of a line, behind one of the kind that is told, and gives its own kind.
    fn add(&mut self, number: u32, line: &[u8], last_kind: u8) -> Result<u8, Sort> {
        let mut cells = cells(line, self.separator);
        // A line has at least one cell, if an empty one.
        let word = cells.next().unwrap_or_default();
        let kind = kind_of(word)?;
        let nth = usize::from(kind) - 1;
        if kind < last_kind {
            return Err(Sort::Order);
        }
        if self.lines[nth].len() == MOST_ROWS {
            return Err(Sort::Rows);
        }
        let fields: Vec<&[u8]> = cells.collect();
        let (due, found) = (KINDS[nth].numbers, used(&fields));
        if found != due {
            return Err(Sort::Fields { due, found });
        }
        let mut row = Vec::with_capacity(due);
        for field in &fields[..due] {
            row.push(self.number(kind, &row, field)?);
        }
        self.lists[nth].extend(row);
        self.lines[nth].push(number);
        Ok(kind)
    }

    /// The next number of a row of this kind.
    fn number(&self, kind: u8, before: &[u32], cell: &[u8]) -> Result<u32, Sort> {
        let field = before.len();
        let at = At { kind, field };
        match spelling(kind, field, before) {
            Spelling::Unit => {
                let mut words = (0..).zip(UNIT_WORDS);
                let code = words.find(|(_, word)| cell.eq_ignore_ascii_case(word.as_bytes()));
                code.map(|(code, _)| code).ok_or(Sort::Unit(at))
            }
            Spelling::Decimals(decimals) => {
                let comma = self.separator != b',';
                units(cell, decimals, comma).map_err(|wrong| match wrong {
                    Wrong::Number => Sort::Number(at),
                    Wrong::Decimals => Sort::Decimals(at),
                    Wrong::Large => Sort::Large(at),
                })
            }
        }
    }
}

/// The kind of a row by its first field, "letters made small".
fn kind_of(word: &[u8]) -> Result<u8, Sort> {
    let mut kinds = (1..).zip(&KINDS);
    let named = kinds.find(|(_, kind)| word.eq_ignore_ascii_case(kind.name.as_bytes()));
    match named {
        Some((number, _)) => Ok(number),
        None if word.eq_ignore_ascii_case(EDITION) => Err(Sort::Edition),
        None => Err(Sort::Kind),
    }
}

#[cfg(test)]
#[path = "typed_tests.rs"]
mod tests;
