//! Rows as numbers, kind after kind: for the writer, good or not, as C lends them, and those of a return.

use crate::kinds::KINDS;
use crate::make::{Rows, BLOCK};
use crate::writer::write;

/// An edition to write and an area of rows, kind after kind, with the length of
/// each kind's part, and a short word on how they were made.
#[derive(Clone)]
pub struct RowLists {
    pub how: String,
    pub edition: u32,
    pub rows: Vec<u32>,
    pub lengths: Vec<u32>,
}

/// Each kind's part of the area by itself.
pub type Lists = [Vec<u32>; KINDS.len()];

impl RowLists {
    pub fn of(how: String, rows: &Rows) -> Self {
        Self::joined(how, u32::from(rows.edition), &rows.lists())
    }

    pub fn joined(how: String, edition: u32, lists: &Lists) -> Self {
        RowLists {
            how,
            edition,
            rows: lists.concat(),
            lengths: lists.iter().map(|list| list.len() as u32).collect(),
        }
    }

    /// Each kind's rows by itself, where the lengths add up.
    pub fn lists(&self) -> Lists {
        let mut rest = &self.rows[..];
        std::array::from_fn(|kind| {
            let (own, later) = rest.split_at(self.lengths[kind] as usize);
            rest = later;
            own.to_vec()
        })
    }

    /// The second program's own answer to them.
    pub fn write(&self, room: &mut [u8], size: &mut [u32]) -> u32 {
        write(self.edition, &self.rows, &self.lengths, room, size)
    }
}

/// A kind's rows among all, with the numbers that such a row has.
pub fn rows_in<const N: usize>(lists: &Lists, kind: usize) -> &[[u32; N]] {
    lists[kind - 1].as_chunks().0
}

/// The same row by row, of a kind that is told later.
pub fn rows_of_kind(lists: &Lists, kind: u8) -> impl Iterator<Item = &[u32]> {
    let kind = usize::from(kind) - 1;
    lists[kind].chunks(KINDS[kind].numbers)
}

/// The blocks that a kind's rows take: twelve in each but the last.
pub fn blocks_of(lists: &Lists, kind: u8) -> usize {
    rows_of_kind(lists, kind).count().div_ceil(12)
}

/// The place of a kind's first row, which stands behind the blocks of the kinds below it.
pub fn first_place(lists: &Lists, kind: u8) -> usize {
    12 * (1..kind)
        .map(|lower| blocks_of(lists, lower))
        .sum::<usize>()
}

/// The row of a kind at a place, where it is one of this kind.
pub fn row_at(lists: &Lists, kind: u8, place: usize) -> Option<&[u32]> {
    let nth = place.checked_sub(first_place(lists, kind))?;
    rows_of_kind(lists, kind).nth(nth)
}

/// The rows of a return that is accepted, or of one whose rows are all good by themselves, by the table of kinds.
pub fn rows_of(bytes: &[u8]) -> Lists {
    let mut lists = Lists::default();
    for block in bytes.chunks(BLOCK) {
        let kind = usize::from(block[0]) - 1;
        for record in block[8..488].chunks(40).take(block[1].into()) {
            let fields = KINDS[kind].fields.iter();
            lists[kind].extend(fields.map(|field| field.number(record)));
        }
    }
    lists
}
