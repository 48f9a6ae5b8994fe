//! Reading: the rows of a return into one lent area, kind after kind, with
//! the edition, their numbers and that of the scattered trees beside them.

use crate::judge::{check, Checked, Refusal};
use crate::kinds::{COUNTS_ROOM, KINDS};

/// Reads a return, as C sees it: 0 with the rows at the front of `rows`, and the
/// edition, the number of each kind and that of the scattered trees at the front of
/// `counts`, or the refusal with both as they were.
pub fn read(bytes: &[u8], rows: &mut [u32], counts: &mut [u32]) -> u32 {
    match check(bytes).and_then(|checked| rooms_suffice(checked, rows.len(), counts.len())) {
        Ok(checked) => {
            let mut rest = rows;
            for (kind, &count) in (1..).zip(&checked.counts.rows) {
                let layout = &KINDS[usize::from(kind) - 1];
                let (room, later) = rest.split_at_mut(layout.numbers * count as usize);
                (layout.take)(checked, kind, room);
                rest = later;
            }
            counts[..COUNTS_ROOM].copy_from_slice(&checked.counts.numbers());
            0
        }
        Err(refusal) => refusal.answer(),
    }
}

/// Judges a return, as C sees it: 0 with the edition, the number of each kind and that of the scattered trees at the front of `counts`, or the refusal
/// with `counts` as it was.
pub fn count(bytes: &[u8], counts: &mut [u32]) -> u32 {
    match (check(bytes), counts.get_mut(..COUNTS_ROOM)) {
        (Err(refusal), _) => refusal.answer(),
        (Ok(_), None) => 9000,
        (Ok(checked), Some(front)) => {
            front.copy_from_slice(&checked.counts.numbers());
            0
        }
    }
}

/// Elements that the rows of the kinds up to each one take together.
pub fn ends(counts: &[u32; KINDS.len()]) -> [usize; KINDS.len()] {
    let mut end = 0;
    std::array::from_fn(|kind| {
        end += KINDS[kind].numbers * counts[kind] as usize;
        end
    })
}

/// Number 9 at the lowest place: 0 for the counts' room, then the first kind
/// whose rows end behind the area.
fn rooms_suffice(checked: Checked, rows: usize, counts: usize) -> Result<Checked, Refusal> {
    let refused = |place| Err(Refusal { number: 9, place });
    let short = ends(&checked.counts.rows)
        .iter()
        .position(|&end| end > rows);
    match short {
        _ if counts < COUNTS_ROOM => refused(0),
        Some(kind) => refused(kind as u32 + 1),
        None => Ok(checked),
    }
}

#[cfg(test)]
#[path = "rows_tests.rs"]
mod tests;
