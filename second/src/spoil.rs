//! Rows that are bad in one chosen way: numbers 5 to 7 of the paper, 12 of the request
//! on fuelwood (02, §8), 13 of that on soils (02, §11) and 14 of that on scattered trees
//! (02, §12).

use crate::kinds::Field;
use crate::make::{fields, unbalance, Rows, FIRST_WITH_IDS, SUMMED};
use crate::make::{WITHOUT_TREES, WITH_IDS};
use crate::rng::Rng;

/// How an id fails to be above the one before it.
#[derive(Clone, Copy, Debug)]
pub enum BadId {
    Equal,
    OneBelow,
    Zero,
    /// The id before is raised to 2^32 - 1.
    BeforeAtTop,
    /// Wrong only for a reader that takes ids as signed.
    OverTheMiddle,
    /// Wrong only for a reader that takes the bytes in the other order.
    OverAByte,
}

pub const BAD_IDS: [BadId; 6] = [
    BadId::Equal,
    BadId::OneBelow,
    BadId::Zero,
    BadId::BeforeAtTop,
    BadId::OverTheMiddle,
    BadId::OverAByte,
];

/// How a field is above its limit.
#[derive(Clone, Copy, Debug)]
pub enum Above {
    ByOne,
    /// The largest its width holds.
    Largest,
    /// The highest bit alone: below zero to a signed reader.
    HighBit,
    /// Only the highest byte, so that a reader who drops it sees zero.
    HighByte,
    Random,
}

pub const ABOVES: [Above; 5] = [
    Above::ByOne,
    Above::Largest,
    Above::HighBit,
    Above::HighByte,
    Above::Random,
];

/// Breaks number 5 at a row that has one before it.
pub fn spoil_id(rows: &mut Rows, kind: u8, row: usize, way: BadId) {
    let before = rows.row(kind, row - 1)[0];
    let id = match way {
        BadId::Equal => before,
        BadId::OneBelow => before.saturating_sub(1),
        BadId::Zero => 0,
        BadId::BeforeAtTop => {
            rows.row(kind, row - 1)[0] = u32::MAX;
            return;
        }
        BadId::OverTheMiddle => {
            rows.row(kind, row - 1)[0] = before.max(0x8000_0000);
            0x7FFF_FFFF
        }
        BadId::OverAByte => {
            rows.row(kind, row - 1)[0] = before.max(0x0001_0000);
            0x0000_FFFF
        }
    };
    rows.row(kind, row)[0] = id;
}

/// A value of this width above the limit.
pub fn above(rng: &mut Rng, width: usize, limit: u32, way: Above) -> u32 {
    let largest = u32::MAX >> (32 - 8 * width);
    match way {
        Above::ByOne => limit + 1,
        Above::Largest => largest,
        Above::HighBit => largest / 2 + 1,
        // One-byte fields have no lower byte; the others need a high byte that
        // alone is above the limit.
        Above::HighByte => {
            let low = 8 * (width as u32 - 1);
            let least = limit / (1 << low) + 1;
            rng.from_to(least, 255) << low
        }
        Above::Random => rng.from_to(limit + 1, largest),
    }
}

/// How many values are tried in a field of rows for the writer.
pub const VALUES: usize = 20;

/// A value to try in a field of this limit: good ones, one above, and some that
/// would be good again were the field's width all that is looked at.
pub fn value(which: usize, limit: u32, rng: &mut Rng) -> u32 {
    match which {
        0 => 0,
        1 => 1,
        2 => limit - 1,
        3 => limit,
        4 => limit + 1,
        5 => 255,
        6 => 256,
        7 => 257,
        8 => 65_535,
        9 => 65_536,
        10 => 65_537,
        11 => 65_536 + limit,
        12 => 256 + limit,
        13 => 1 << 24,
        14 => (1 << 31) - 1,
        15 => 1 << 31,
        16 => (1 << 31) + limit,
        17 => u32::MAX,
        18 => u32::MAX - limit,
        _ => rng.from_to(limit + 1, u32::MAX),
    }
}

/// Breaks number 6 at one field, counted in row order.
pub fn spoil_limit(rng: &mut Rng, rows: &mut Rows, at: (u8, usize, usize), way: Above) {
    let (kind, row, field) = at;
    let Field { bytes, most, .. } = fields(kind)[field];
    rows.row(kind, row)[field] = above(rng, bytes, most, way);
}

/// Breaks number 7 and nothing else: every fraction keeps its limit.
pub fn spoil_fractions(rng: &mut Rng, row: &mut [u32; 15]) {
    let sum: u32 = rng.pick(&[1_001, 1_001, 1_002, 2_000, 2_001, 3_000]);
    let mut left = sum;
    let turn = rng.below(3);
    for i in 0..3 {
        // At least what the fractions still to come can't hold.
        let rest = 1_000 * (2 - i as u32);
        let part = rng.from_to(left.saturating_sub(rest), left.min(1_000));
        row[SUMMED[(i + turn) % 3]] = part;
        left -= part;
    }
}

/// Breaks number 12 and nothing else: L above 100 K by one, by a few or by many, or
/// nothing used at all. By how much.
pub fn spoil_clearing(rng: &mut Rng, rows: &mut Rows) -> u128 {
    let any = 1 + rng.below(900_000) as i64;
    let more = rng.pick(&[1, 1, 1, 2, 99, 100, any, any]);
    rows.balance(rng, more);
    if rng.one_in(4) {
        rows.harvest.iter_mut().for_each(|row| row[1..].fill(0));
    }
    let [used, cleared] = rows.used_and_cleared();
    cleared - used
}

/// A kind with ids that this edition has.
fn any_with_ids(rng: &mut Rng, rows: &Rows) -> u8 {
    let known = if rows.edition == 1 {
        FIRST_WITH_IDS
    } else {
        WITH_IDS.len()
    };
    WITH_IDS[rng.below(known)]
}

/// Any field whose bytes hold more than its limit: its kind, row and position.
pub fn any_limited(rng: &mut Rng, rows: &Rows) -> (u8, usize, usize) {
    let (kind, row) = any_row(rng, rows);
    (kind, row, any_limited_of(rng, kind))
}

/// Any field but an id, those that fill their bytes included: as a number of 32 bits it
/// may be above its limit all the same.
pub fn any_field(rng: &mut Rng, rows: &Rows) -> (u8, usize, usize) {
    let (kind, row) = any_row(rng, rows);
    let first = usize::from(kind != 4);
    (kind, row, first + rng.below(fields(kind).len() - first))
}

fn any_row(rng: &mut Rng, rows: &Rows) -> (u8, usize) {
    let kind = match rng.below(5) {
        0 => 1,
        1 => 4,
        _ => any_with_ids(rng, rows),
    };
    (kind, rng.below(rows.len(kind)))
}

/// Any field of a kind whose bytes hold more than its limit.
pub fn any_limited_of(rng: &mut Rng, kind: u8) -> usize {
    let fields = fields(kind).iter().enumerate();
    let limited = fields.filter(|(_, field)| field.can_exceed());
    rng.pick(&limited.map(|(at, _)| at).collect::<Vec<_>>())
}

/// Good rows in which each of these numbers can be broken: two or more of each kind with
/// ids that their edition has, soils where they are wanted, and the edition without trees
/// where these are to be at fault.
pub fn to_be_spoiled(rng: &mut Rng, numbers: &[u32]) -> Rows {
    if numbers.contains(&14) {
        Rows::good_from_in(rng, WITHOUT_TREES, 2)
    } else if numbers.contains(&13) {
        Rows::good_later(rng, 2)
    } else {
        Rows::good_from(rng, 2)
    }
}

/// The order in which numbers are broken in rows, so that none undoes another: 12 and 13
/// are brought about in rows that are good.
pub const SPOILED: [u32; 6] = [13, 12, 7, 14, 6, 5];

/// Breaks one of the numbers 5 to 7 at a random place, or 12, 13 or 14, in rows that are
/// [`to_be_spoiled`].
pub fn spoil(rng: &mut Rng, rows: &mut Rows, number: u32) -> String {
    match number {
        5 => {
            let kind = any_with_ids(rng, rows);
            let length = rows.len(kind);
            let mut row = 1 + rng.below(length - 1);
            // The first row of a later block, often.
            if length > 12 && rng.one_in(3) {
                row = if length > 24 { rng.pick(&[12, 24]) } else { 12 };
            }
            let way = rng.pick(&BAD_IDS);
            spoil_id(rows, kind, row, way);
            format!("5: {way:?} at kind {kind} row {row}")
        }
        6 => {
            let (kind, row, field) = any_limited(rng, rows);
            let way = rng.pick(&ABOVES);
            spoil_limit(rng, rows, (kind, row, field), way);
            format!("6: {way:?} at kind {kind} row {row} field {field}")
        }
        7 => {
            let row = rng.below(rows.conversion.len());
            spoil_fractions(rng, &mut rows.conversion[row]);
            format!("7: at row {row}")
        }
        12 => format!("12: by {}", spoil_clearing(rng, rows)),
        13 => format!("13: {}", unbalance(rng, &mut rows.soil)),
        14 => format!("14: {}", rows.plant(rng)),
        _ => unreachable!("number {number} is not broken in rows"),
    }
}

#[cfg(test)]
mod tests {
    use super::*;
    use crate::judge::{judge, Refusal, Verdict};

    #[test]
    fn each_number_broken_alone_is_given() {
        let mut rng = Rng::new(11);
        for number in SPOILED {
            for _ in 0..2_000 {
                let mut rows = to_be_spoiled(&mut rng, &[number]);
                let how = spoil(&mut rng, &mut rows, number);
                match judge(&rows.to_bytes()) {
                    Verdict::Refused(Refusal { number: given, .. }) => {
                        assert_eq!(given, number, "{how}")
                    }
                    accepted => panic!("{how}: {accepted:?}"),
                }
            }
        }
    }
}
