//! Which conversion row weighs most (02, §7): "for an accepted return and one of
//! the three subtotals it names the row with the largest exact part, the lower id
//! on a tie, 'none' where the subtotal is zero".

use crate::judge::{check, four, Checked, Refusal};
use crate::land::Conversion;
use crate::sheets::{carbon, SHORT};
use crate::text::Text;

/// A conversion row's id, and its part of a subtotal in 10^-12 kt C.
#[derive(Clone, Copy, Debug, PartialEq, Eq)]
pub struct Heaviest {
    pub id: u32,
    pub part: u64,
}

/// A row's exact part of a subtotal.
type PartOf = fn(Conversion) -> u64;

/// The three subtotals in the order of their codes: the line's name, the name of
/// its part, and a row's part.
const SUBTOTALS: [(&str, &str, PartOf); 3] = [
    ("heaviest_onsite ", "heaviest_onsite_part ", |row| {
        carbon(row.year, row.on_site)
    }),
    ("heaviest_offsite ", "heaviest_offsite_part ", |row| {
        carbon(row.year, row.off_site)
    }),
    ("heaviest_decay ", "heaviest_decay_part ", |row| {
        carbon(row.ten_years, row.decay)
    }),
];

/// What C lends for a row: whether there is one, its id and its part.
pub const HEAVIEST_ROOM: usize = 3;

/// The heaviest row of each subtotal, in the order of their codes.
pub fn heaviest_rows(checked: Checked) -> [Option<Heaviest>; SUBTOTALS.len()] {
    SUBTOTALS.map(|(_, _, part_of)| heaviest_row(checked, part_of))
}

/// Ids rise, so a later row has to be heavier, not as heavy. A subtotal is zero
/// where no row is above zero.
fn heaviest_row(checked: Checked, part_of: PartOf) -> Option<Heaviest> {
    let mut heaviest: Option<Heaviest> = None;
    for record in checked.records(1) {
        let part = part_of(Conversion::of(record));
        if part > heaviest.map_or(0, |row| row.part) {
            let id = four(record, 0);
            heaviest = Some(Heaviest { id, part });
        }
    }
    heaviest
}

/// Two lines for each subtotal, or one that says there is no such row.
pub(crate) fn print(checked: Checked, text: &mut Text) {
    for ((name, part_name, _), row) in SUBTOTALS.iter().zip(heaviest_rows(checked)) {
        match row {
            None => text.word_line(name, "none"),
            Some(Heaviest { id, part }) => {
                text.line(name, id.into());
                text.line(part_name, part);
            }
        }
    }
}

/// As C asks for one of them: 0 and the row at the front of `room`, or 1,000
/// times the refusal number plus the place and `room` as it was.
pub fn heaviest(bytes: &[u8], code: u32, room: &mut [u64]) -> u32 {
    match row_asked_for(bytes, code, room.len()) {
        Err(refusal) => refusal.answer(),
        Ok(row) => {
            let numbers = row.map_or([0; HEAVIEST_ROOM], |row| [1, row.id.into(), row.part]);
            room[..HEAVIEST_ROOM].copy_from_slice(&numbers);
            0
        }
    }
}

/// "Refusals: those of the sheets, then 11 for a subtotal's code above 2", and
/// from C last 9.
fn row_asked_for(bytes: &[u8], code: u32, room: usize) -> Result<Option<Heaviest>, Refusal> {
    let checked = check(bytes)?;
    let unknown = Refusal {
        number: 11,
        place: 0,
    };
    let (_, _, part_of) = SUBTOTALS.get(code as usize).ok_or(unknown)?;
    if room < HEAVIEST_ROOM {
        return Err(SHORT);
    }
    Ok(heaviest_row(checked, *part_of))
}

#[cfg(test)]
#[path = "heaviest_tests.rs"]
mod tests;
