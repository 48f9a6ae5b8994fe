//! The kinds of rows as the paper lays them out, a line of [`KINDS`] for each.
//!
//! A row is its numbers of 32 bits in lent memory and its bytes in a record.
//! The compiler knows every layout, so that a kind's loops are straight code;
//! the table holds them by kind.

use crate::judge::{four, two, Checked, Record};
use std::ops::RangeInclusive;

/// A number of a row: its name in the paper's words, where its bytes begin in the
/// record, how many they are, and the most it may be.
#[derive(Clone, Copy)]
pub struct Field {
    /// With `_` for a space.
    pub name: &'static str,
    pub at: usize,
    pub bytes: usize,
    pub most: u32,
}

const fn field(name: &'static str, at: usize, bytes: usize, most: u32) -> Field {
    Field {
        name,
        at,
        bytes,
        most,
    }
}

const AREA: u32 = 1_000_000;
const DENSITY: u32 = 10_000;
const SHARE: u32 = 1_000;
/// A stock's amount, a harvest's F, I and J, both areas of abandoned land, and a crop's
/// production.
const AMOUNT: u32 = 10_000_000;
/// A stock's growth rate, a harvest's G, and both rates of abandoned land.
const RATE: u32 = 10_000;
/// "0 land, 1 scattered trees"
const UNIT_CODE: u32 = 1;
/// Land system and soil type: "numbers from 0 to 65,535", all that two bytes hold.
const CODE: u32 = 65_535;
/// Both areas of a soil row.
const SOIL_AREA: u32 = 100_000;
const NATIVE_CARBON: u32 = 10_000;
/// Base, tillage and input.
const FACTOR: u32 = 300;
/// Residues to a crop, in hundredths.
const RESIDUE_RATIO: u32 = 1_000;
/// A share in ten-thousandths.
const FINE_SHARE: u32 = 10_000;

/// A row of a later kind: "a record is the id in four bytes, then the fields in the order named, four bytes for an area or a
/// production and two for anything else, then zeros" (02, §1).
const fn behind_id<const N: usize>(named: [(&'static str, usize, u32); N]) -> [Field; N] {
    let (mut fields, mut nth) = ([ID; N], 1);
    while nth < N {
        let (name, bytes, most) = named[nth];
        fields[nth] = field(
            name,
            fields[nth - 1].at + fields[nth - 1].bytes,
            bytes,
            most,
        );
        nth += 1;
    }
    fields
}

/// "An id is any 32-bit number, zero included", and stands first.
const ID: Field = field("id", 0, 4, u32::MAX);
const NAMED_ID: (&str, usize, u32) = (ID.name, ID.bytes, ID.most);

/// A kind whose rows have `N` numbers.
trait Layout<const N: usize> {
    const FIELDS: [Field; N];
    /// The same for the table, which has kinds of every length.
    const ALL_FIELDS: &'static [Field] = &Self::FIELDS;
    /// Whether the first number is an id, which must be above the one before.
    const HAS_ID: bool = true;

    /// Number 14. Where a field is above its limit, number 6 comes before.
    fn is_retired(_: u32, _: &[u32; N]) -> bool {
        false
    }

    /// Number 7.
    fn fractions_hold(_: &[u32; N]) -> bool {
        true
    }
}

struct Conversion;
impl Layout<15> for Conversion {
    const FIELDS: [Field; 15] = [
        ID,
        field("area", 4, 4, AREA),
        field("before", 8, 2, DENSITY),
        field("after", 10, 2, DENSITY),
        field("on-site_fraction", 12, 2, SHARE),
        field("on-site_oxidised_fraction", 14, 2, SHARE),
        field("on-site_carbon_fraction", 16, 2, SHARE),
        field("off-site_fraction", 18, 2, SHARE),
        field("off-site_oxidised_fraction", 20, 2, SHARE),
        field("off-site_carbon_fraction", 22, 2, SHARE),
        field("ten-year_area", 24, 4, AREA),
        field("ten-year_before", 28, 2, DENSITY),
        field("ten-year_after", 30, 2, DENSITY),
        field("decay_fraction", 32, 2, SHARE),
        field("decay_carbon_fraction", 34, 2, SHARE),
    ];

    /// "on-site + off-site + decay above 1,000"
    fn fractions_hold(row: &[u32; 15]) -> bool {
        row[4].wrapping_add(row[7]).wrapping_add(row[13]) <= SHARE
    }
}

struct Stock;
impl Layout<5> for Stock {
    const FIELDS: [Field; 5] = [
        ID,
        field("unit_code", 4, 1, UNIT_CODE),
        field("rate", 6, 2, RATE),
        field("amount", 8, 4, AMOUNT),
        field("carbon_fraction", 12, 2, SHARE),
    ];

    /// "Edition 3 has no unit code 1."
    fn is_retired(edition: u32, row: &[u32; 5]) -> bool {
        edition == 3 && row[1] == 1
    }
}

struct Harvest;
impl Layout<5> for Harvest {
    const FIELDS: [Field; 5] = [
        ID,
        field("F", 4, 4, AMOUNT),
        field("G", 8, 2, RATE),
        field("I", 12, 4, AMOUNT),
        field("J", 16, 4, AMOUNT),
    ];
}

struct Parameters;
impl Layout<6> for Parameters {
    const FIELDS: [Field; 6] = [
        field("N", 4, 2, SHARE),
        field("CH4", 6, 2, SHARE),
        field("CO", 8, 2, SHARE),
        field("N/C", 10, 2, SHARE),
        field("N2O", 12, 2, SHARE),
        field("NOx", 14, 2, SHARE),
    ];
    const HAS_ID: bool = false;
}

struct Abandoned;
impl Layout<7> for Abandoned {
    const FIELDS: [Field; 7] = behind_id([
        NAMED_ID,
        ("area", 4, AMOUNT),
        ("growth_rate", 2, RATE),
        ("carbon_fraction", 2, SHARE),
        ("longer_area", 4, AMOUNT),
        ("longer_growth_rate", 2, RATE),
        ("longer_carbon_fraction", 2, SHARE),
    ]);
}

/// Area and density, then the part burned, the live part of that, oxidised and
/// carbon fraction of the live and of the dead, N/C, CH4, CO, N2O and NOx.
struct Savanna;
impl Layout<14> for Savanna {
    const FIELDS: [Field; 14] = behind_id([
        NAMED_ID,
        ("area", 4, AREA),
        ("density", 2, DENSITY),
        ("fraction_really_burned", 2, SHARE),
        ("live_fraction", 2, SHARE),
        ("live_oxidised_fraction", 2, SHARE),
        ("live_carbon_fraction", 2, SHARE),
        ("dead_oxidised_fraction", 2, SHARE),
        ("dead_carbon_fraction", 2, SHARE),
        ("N/C", 2, SHARE),
        ("CH4", 2, SHARE),
        ("CO", 2, SHARE),
        ("N2O", 2, SHARE),
        ("NOx", 2, SHARE),
    ]);
}

/// "A row: land system, soil type, area now and twenty years ago [..], native soil
/// carbon [..], base, tillage and input factors" (02, §11).
struct Soil;
impl Layout<9> for Soil {
    const FIELDS: [Field; 9] = behind_id([
        NAMED_ID,
        ("land_system", 2, CODE),
        ("soil_type", 2, CODE),
        ("area_now", 4, SOIL_AREA),
        ("area_then", 4, SOIL_AREA),
        ("native", 2, NATIVE_CARBON),
        ("base", 2, FACTOR),
        ("tillage", 2, FACTOR),
        ("input", 2, FACTOR),
    ]);
}

/// "production [..], residue ratio [..], dry matter, burned and oxidised fractions [..],
/// carbon fraction [..], N/C and four ratios per crop in §5's order" (02, §14).
struct Crop;
impl Layout<12> for Crop {
    const FIELDS: [Field; 12] = behind_id([
        NAMED_ID,
        ("production", 4, AMOUNT),
        ("residue_ratio", 2, RESIDUE_RATIO),
        ("dry_matter", 2, SHARE),
        ("burned_fraction", 2, SHARE),
        ("oxidised_fraction", 2, SHARE),
        ("carbon_fraction", 2, FINE_SHARE),
        ("N/C", 2, SHARE),
        ("CH4", 2, SHARE),
        ("CO", 2, SHARE),
        ("N2O", 2, SHARE),
        ("NOx", 2, SHARE),
    ]);
}

/// The numbers of single rows, in the order in which they are tried.
pub(crate) const OF_ROWS: [u32; 4] = [5, 6, 14, 7];
/// The first place of each of them.
pub(crate) type FirstPlaces = [Option<usize>; OF_ROWS.len()];

/// One kind of rows. All `&[u32]` hold whole rows, one after the other.
pub struct Kind {
    pub name: &'static str,
    /// The first edition that has it.
    pub since: u32,
    /// Numbers of 32 bits in a row.
    pub numbers: usize,
    /// What each of them is, in the row's order.
    pub fields: &'static [Field],
    /// Whether the first is an id.
    pub has_id: bool,
    pub least_rows: usize,
    pub most_rows: usize,
    /// The rows of a return's records of this kind, into room for just these.
    pub(crate) take: fn(Checked, u8, &mut [u32]),
    /// Notes where rows of an edition that begin at this place are first at fault.
    pub(crate) note: fn(u32, &[u32], usize, &mut FirstPlaces),
    /// At most a block's rows into its records, which are all zero.
    pub(crate) put: fn(&[u32], &mut [Record]),
}

/// "At most 32 rows of each of the first three kinds, none needed; always one
/// parameter row." Abandoned land: "kind 5, after the parameter block, up to 32,
/// in edition 2". Savannas: "Kind 6, edition 2, up to 32 rows". Soils: "Kind 7, edition
/// 2, 32 rows". Crops: "Kind 8, editions 2 and 3, 32 rows". Edition 3 has what edition 2
/// has.
pub static KINDS: [Kind; 8] = [
    Kind::of::<15, Conversion>("conversion", 1, 0, 32),
    Kind::of::<5, Stock>("stock", 1, 0, 32),
    Kind::of::<5, Harvest>("harvest", 1, 0, 32),
    Kind::of::<6, Parameters>("parameters", 1, 1, 1),
    Kind::of::<7, Abandoned>("abandoned", 2, 0, 32),
    Kind::of::<14, Savanna>("savanna", 2, 0, 32),
    Kind::of::<9, Soil>("soil", 2, 0, 32),
    Kind::of::<12, Crop>("crop", 2, 0, 32),
];

/// The kinds above 4, which edition 1 doesn't have.
pub fn later_kinds() -> impl Iterator<Item = u8> {
    let kinds = (1..).zip(&KINDS).filter(|(_, kind)| kind.since > 1);
    kinds.map(|(number, _)| number)
}

/// "an unknown edition" is any other.
pub const EDITIONS: RangeInclusive<u32> = 1..=3;

/// What C lends for counts: the edition, one element for each kind, and the scattered
/// trees.
pub const COUNTS_ROOM: usize = KINDS.len() + 2;

/// Elements that the rows of any return fit.
pub const ROWS_ROOM: usize = {
    let (mut room, mut kind) = (0, 0);
    while kind < KINDS.len() {
        room += KINDS[kind].numbers * KINDS[kind].most_rows;
        kind += 1;
    }
    room
};

/// The blocks that the most rows take of the kinds of an edition.
pub const fn full_blocks(edition: u32) -> usize {
    let (mut blocks, mut kind) = (0, 0);
    while kind < KINDS.len() {
        if KINDS[kind].since <= edition {
            blocks += KINDS[kind].most_rows.div_ceil(12);
        }
        kind += 1;
    }
    blocks
}

/// Bytes that the blocks of any rows fit.
pub const RETURN_ROOM: usize = 512 * full_blocks(*EDITIONS.end());

impl Kind {
    const fn of<const N: usize, L: Layout<N>>(
        name: &'static str,
        since: u32,
        least_rows: usize,
        most_rows: usize,
    ) -> Self {
        Kind {
            name,
            since,
            numbers: N,
            fields: L::ALL_FIELDS,
            has_id: L::HAS_ID,
            least_rows,
            most_rows,
            take: take::<N, L>,
            note: note::<N, L>,
            put: put::<N, L>,
        }
    }

    /// Where the last field ends: "bytes after the last field are zero".
    pub fn fields_end(&self) -> usize {
        self.fields.iter().map(Field::end).max().unwrap_or(0)
    }

    /// Whether zero is due at this byte of a used record: no field has it.
    pub(crate) fn zero_due(&self, at: usize) -> bool {
        let has = |field: &Field| (field.at..field.at + field.bytes).contains(&at);
        !self.fields.iter().any(has)
    }

    /// How many rows so many elements are, if they can be this kind's rows in
    /// an edition.
    pub(crate) fn rows_in(&self, edition: u32, length: u32) -> Option<usize> {
        let numbers = self.numbers as u32;
        let rows = (length / numbers) as usize;
        // A kind that came later has no rows.
        let most_rows = if edition < self.since {
            0
        } else {
            self.most_rows
        };
        let allowed = self.least_rows..=most_rows;
        (length.is_multiple_of(numbers) && allowed.contains(&rows)).then_some(rows)
    }
}

fn take<const N: usize, L: Layout<N>>(checked: Checked, kind: u8, room: &mut [u32]) {
    let (rows, _) = room.as_chunks_mut::<N>();
    for (row, record) in rows.iter_mut().zip(checked.records(kind)) {
        *row = std::array::from_fn(|i| L::FIELDS[i].of(record));
    }
}

fn put<const N: usize, L: Layout<N>>(rows: &[u32], records: &mut [Record]) {
    let (rows, _) = rows.as_chunks::<N>();
    for (row, record) in rows.iter().zip(records) {
        for (field, &value) in L::FIELDS.iter().zip(row) {
            field.put(record, value);
        }
    }
}

fn note<const N: usize, L: Layout<N>>(
    edition: u32,
    rows: &[u32],
    place: usize,
    first: &mut FirstPlaces,
) {
    let (rows, _) = rows.as_chunks::<N>();
    let mut least_id = 0;
    for (row, place) in rows.iter().zip(place..) {
        // One more than the id before, in a wider word since 2^32 - 1 is an id.
        let id = u64::from(row[0]);
        let fallen = L::HAS_ID && id < least_id;
        least_id = id + 1;
        // A number too wide for its bytes is above its limit too.
        let fields = row.iter().zip(&L::FIELDS);
        let above = fields.fold(false, |any, (&value, field)| any | (value > field.most));
        let retired = L::is_retired(edition, row);
        let faults = [fallen, above, retired, !L::fractions_hold(row)];
        if faults.contains(&true) {
            for (first, _) in first.iter_mut().zip(faults).filter(|(_, fault)| *fault) {
                first.get_or_insert(place);
            }
        }
    }
}

impl Field {
    pub fn end(&self) -> usize {
        self.at + self.bytes
    }

    /// Whether its bytes hold a number above its limit; those of an id don't.
    pub fn can_exceed(&self) -> bool {
        self.most < u32::MAX >> (32 - 8 * self.bytes)
    }

    /// Its number in a record, byte by byte.
    pub fn number(&self, record: &[u8]) -> u32 {
        let bytes = record[self.at..self.end()].iter().rev();
        bytes.fold(0, |number, &byte| number << 8 | u32::from(byte))
    }

    #[inline(always)]
    pub(crate) fn of(self, record: &Record) -> u32 {
        match self.bytes {
            1 => u32::from(record[self.at]),
            2 => u32::from(two(record, self.at)),
            _ => four(record, self.at),
        }
    }

    /// Only for a value inside the limit, which its bytes hold.
    #[inline(always)]
    pub(crate) fn put(self, record: &mut Record, value: u32) {
        let bytes = value.to_le_bytes();
        match self.bytes {
            1 => record[self.at] = bytes[0],
            2 => record[self.at..self.at + 2].copy_from_slice(&bytes[..2]),
            _ => record[self.at..self.at + 4].copy_from_slice(&bytes),
        }
    }
}

#[cfg(test)]
#[path = "kinds_tests.rs"]
mod tests;
