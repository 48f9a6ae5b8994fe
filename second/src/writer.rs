//! Writing: rows in one lent area, kind after kind, into the blocks of a return.

use crate::areas::Areas;
use crate::judge::{Record, Refusal};
use crate::kinds::{FirstPlaces, Kind, EDITIONS, KINDS, OF_ROWS};
use crate::wood::Wood;

const BLOCK: usize = 512;
const RECORD: usize = 40;
const RECORDS_PER_BLOCK: usize = 12;

type Block = [u8; BLOCK];

/// Writes a return, as C sees it: 0 with the blocks at the front of `room` and
/// the number of bytes in `size[0]`, or the refusal with both as they were.
/// `lengths` has for each kind how many elements of `rows` are its rows.
pub fn write(
    edition: u32,
    rows: &[u32],
    lengths: &[u32],
    room: &mut [u8],
    size: &mut [u32],
) -> u32 {
    match checked(edition, rows, lengths, (room.len(), size.len())) {
        Ok((counts, blocks)) => {
            put(edition as u16, rows, &counts, &mut room[..BLOCK * blocks]);
            size[0] = (BLOCK * blocks) as u32;
            0
        }
        Err(refusal) => refusal.answer(),
    }
}

/// How many rows of each kind there are.
type Counts = [usize; KINDS.len()];

/// "Writing: 10, then 5 to 9", without 8 (02, §3), with 14 "straight after 6" (02, §12),
/// 12 "straight after 7" (02, §8) and 13 "straight after 12" (02, §11). The rows of each
/// kind, and the blocks they take.
fn checked(
    edition: u32,
    rows: &[u32],
    lengths: &[u32],
    (room, size): (usize, usize),
) -> Result<(Counts, usize), Refusal> {
    let counts = counts_of(edition, rows, lengths)?;
    rows_hold(edition, rows, &counts)?;
    if !wood_of(rows, &counts).holds() {
        return Err(Refusal {
            number: 12,
            place: 0,
        });
    }
    if let Some(uneven) = areas_of(rows, &counts).uneven() {
        return Err(Refusal {
            number: 13,
            place: uneven.place as u32,
        });
    }
    let blocks = counts
        .iter()
        .map(|rows| rows.div_ceil(RECORDS_PER_BLOCK))
        .sum();
    // Place 0 for the room and for the size.
    if room < BLOCK * blocks || size == 0 {
        return Err(Refusal {
            number: 9,
            place: 0,
        });
    }
    Ok((counts, blocks))
}

/// Number 10: place 0 for an unknown edition, or where there is not one length
/// for each kind or they do not add up to the area; then the lowest kind that
/// its length is wrong for, "rows above kind 4 in edition 1" included.
fn counts_of(edition: u32, rows: &[u32], lengths: &[u32]) -> Result<Counts, Refusal> {
    let refused = |place| Refusal { number: 10, place };
    if !EDITIONS.contains(&edition) {
        return Err(refused(0));
    }
    let lengths: &[u32; KINDS.len()] = lengths.try_into().map_err(|_| refused(0))?;
    // In 64 bits, which a few numbers of 32 can't go beyond.
    let sum: u64 = lengths.iter().map(|&length| u64::from(length)).sum();
    if sum != rows.len() as u64 {
        return Err(refused(0));
    }
    let mut counts = [0; KINDS.len()];
    for (at, kind) in KINDS.iter().enumerate() {
        let rows = kind.rows_in(edition, lengths[at]);
        counts[at] = rows.ok_or(refused(at as u32 + 1))?;
    }
    Ok(counts)
}

/// Each kind that has rows, with its number, how many and which they are.
fn parts<'a>(
    mut rest: &'a [u32],
    counts: &'a Counts,
) -> impl Iterator<Item = (u8, &'static Kind, usize, &'a [u32])> {
    let kinds = (1..).zip(&KINDS).zip(counts);
    let kinds = kinds.filter(|(_, &count)| count > 0);
    kinds.map(move |((number, kind), &count)| {
        let (rows, later) = rest.split_at(kind.numbers * count);
        rest = later;
        (number, kind, count, rows)
    })
}

/// Numbers 5, 6, 14 and 7: the faults of single rows don't lean on each other, so one
/// pass notes the first place of each. All blocks of a kind but its last are
/// full, so the places of its rows follow each other.
fn rows_hold(edition: u32, rows: &[u32], counts: &Counts) -> Result<(), Refusal> {
    let (mut first, mut first_block) = (FirstPlaces::default(), 0);
    for (_, kind, count, rows) in parts(rows, counts) {
        let place = RECORDS_PER_BLOCK * first_block;
        (kind.note)(edition, rows, place, &mut first);
        first_block += count.div_ceil(RECORDS_PER_BLOCK);
    }
    let mut tried = OF_ROWS.into_iter().zip(first);
    match tried.find_map(|(number, place)| Some((number, place?))) {
        None => Ok(()),
        Some((number, place)) => Err(Refusal {
            number,
            place: place as u32,
        }),
    }
}

/// The sums of number 12, of rows whose fields are within their limits.
fn wood_of(rows: &[u32], counts: &Counts) -> Wood {
    let mut wood = Wood::default();
    for (number, kind, _, rows) in parts(rows, counts) {
        for row in rows.chunks(kind.numbers) {
            match number {
                1 => wood.clear([row[1], row[2], row[3], row[7]]),
                3 => wood.use_up([row[1], row[2], row[3], row[4]]),
                _ => {}
            }
        }
    }
    wood
}

/// The areas of number 13, of rows within their limits, each at the place "where it
/// would stand".
fn areas_of(rows: &[u32], counts: &Counts) -> Areas {
    let (mut areas, mut first_block) = (Areas::default(), 0);
    for (number, kind, count, rows) in parts(rows, counts) {
        if number == 7 {
            let places = RECORDS_PER_BLOCK * first_block..;
            for (row, place) in rows.chunks(kind.numbers).zip(places) {
                areas.add(place, [row[2], row[3], row[4]]);
            }
        }
        first_block += count.div_ceil(RECORDS_PER_BLOCK);
    }
    areas
}

/// Fills `room`, which is exactly as long as the blocks.
fn put(edition: u16, rows: &[u32], counts: &Counts, room: &mut [u8]) {
    let (blocks, _) = room.as_chunks_mut::<BLOCK>();
    let total = blocks.len() as u16;
    let mut blocks = blocks.iter_mut().zip(0..);
    for (number, kind, mut left, rows) in parts(rows, counts) {
        let rows = rows.chunks(RECORDS_PER_BLOCK * kind.numbers);
        // The rows come first: `zip` must not take a block that has none.
        for (rows, (block, place)) in rows.zip(&mut blocks) {
            let count = left.min(RECORDS_PER_BLOCK);
            left -= count;
            block.fill(0);
            block[0] = number;
            block[1] = count as u8;
            block[2..4].copy_from_slice(&u16::to_le_bytes(place));
            block[4..6].copy_from_slice(&total.to_le_bytes());
            block[6..8].copy_from_slice(&edition.to_le_bytes());
            let (records, _): (&mut [Record], _) = block[8..488].as_chunks_mut();
            (kind.put)(rows, records);
            put_check(block, count);
        }
    }
}

/// What follows the records is zero and adds nothing to the check.
fn put_check(block: &mut Block, records: usize) {
    let check: u32 = block[..8 + RECORD * records]
        .iter()
        .zip(1u32..)
        .map(|(&byte, weight)| u32::from(byte) * weight)
        .sum();
    block[508..].copy_from_slice(&check.to_le_bytes());
}
