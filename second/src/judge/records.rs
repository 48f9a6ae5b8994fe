//! Numbers 5, 6, 14 and 7: the ids, and each record by its fields.

use super::{edition, four, two, unit_code, used_records, Block, Record, Refusal};
use super::{ABANDONED, CONVERSION, CROP, HARVEST, PARAMETERS, SAVANNA, SOIL, STOCK};
use super::{RECORDS_PER_BLOCK, TREES, WITHOUT_TREES};

/// Which of the numbers 6, 14 and 7 a record is at fault with.
#[derive(Clone, Copy, PartialEq, Eq)]
struct Faults {
    limit: bool,
    trees: bool,
    fractions: bool,
}

/// The numbers of single records behind 5, in the order in which they are tried: 14
/// "straight after 6" (02, §12).
const TRIED: [u32; 3] = [6, 14, 7];

/// The first place of each of them.
type FirstPlaces = [Option<u32>; TRIED.len()];

/// Numbers 5, 6, 14 and 7. Only tried when 1 to 4 are clean, so the blocks of one kind
/// stand together and every count is good.
pub(super) fn records_hold(blocks: &[Block]) -> Result<(), Refusal> {
    let edition = edition(&blocks[0]);
    let mut first = FirstPlaces::default();
    let mut kind_before = 0;
    let mut least_id = 0;
    for (b, block) in blocks.iter().enumerate() {
        let kind = block[0];
        if kind != kind_before {
            // "An id not above the id before it, same kind": the first record
            // of a kind has none before it, and zero is an id like any other.
            // The blocks of one kind go on with the ids of the one before.
            kind_before = kind;
            least_id = 0;
        }
        let records = used_records(block, usize::from(block[1]));
        let place = (RECORDS_PER_BLOCK * b) as u32;
        if kind != PARAMETERS {
            // Parameters have "zero 4" in the place of an id.
            ids_rise(records, place, &mut least_id)?;
        }
        match kind {
            CONVERSION => note(records, place, conversion_faults, &mut first),
            STOCK => note(records, place, |r| stock_faults(edition, r), &mut first),
            HARVEST => note(records, place, harvest_faults, &mut first),
            ABANDONED => note(records, place, abandoned_faults, &mut first),
            SAVANNA => note(records, place, savanna_faults, &mut first),
            SOIL => note(records, place, soil_faults, &mut first),
            CROP => note(records, place, crop_faults, &mut first),
            _ => note(records, place, parameter_faults, &mut first),
        }
    }
    let mut tried = TRIED.into_iter().zip(first);
    match tried.find_map(|(number, place)| Some((number, place?))) {
        None => Ok(()),
        Some((number, place)) => Err(Refusal { number, place }),
    }
}

/// Number 5. No lower number is left and places only rise, so the first fault
/// is the answer. `least_id` is one more than the id before, in a wider word
/// because 2^32 - 1 is a good id.
fn ids_rise(records: &[Record], place: u32, least_id: &mut u64) -> Result<(), Refusal> {
    for (record, place) in records.iter().zip(place..) {
        let id = u64::from(four(record, 0));
        if id < *least_id {
            return Err(Refusal { number: 5, place });
        }
        *least_id = id + 1;
    }
    Ok(())
}

fn note(
    records: &[Record],
    place: u32,
    faults_of: impl Fn(&Record) -> Faults,
    first: &mut FirstPlaces,
) {
    for (record, place) in records.iter().zip(place..) {
        let faults = faults_of(record);
        if faults.limit | faults.trees | faults.fractions {
            let found = [faults.limit, faults.trees, faults.fractions];
            for (first, _) in first.iter_mut().zip(found).filter(|(_, found)| *found) {
                first.get_or_insert(place);
            }
        }
    }
}

const MOST_AREA: u32 = 1_000_000;
const MOST_DENSITY: u16 = 10_000;
const MOST_FRACTION: u16 = 1_000;
/// A stock's amount, a harvest's F, I and J, and both areas of abandoned land.
const MOST_AMOUNT: u32 = 10_000_000;
/// A stock's growth rate, a harvest's G, and both rates of abandoned land.
const MOST_RATE: u16 = 10_000;
const LAST_UNIT_CODE: u8 = 1;
const MOST_SOIL_AREA: u32 = 100_000;
const MOST_NATIVE_CARBON: u16 = 10_000;
const MOST_FACTOR: u16 = 300;
const MOST_PRODUCTION: u32 = 10_000_000;
const MOST_RESIDUES: u16 = 1_000;
/// A crop's carbon fraction, of 0.0001.
const MOST_CROP_CARBON: u16 = 10_000;

/// The `N` numbers of two bytes that begin at `at`.
fn twos<const N: usize>(record: &Record, at: usize) -> [u16; N] {
    std::array::from_fn(|i| two(record, at + 2 * i))
}

fn any_above<const N: usize>(fields: [u16; N], limit: u16) -> bool {
    fields.iter().fold(false, |any, &f| any | (f > limit))
}

fn conversion_faults(r: &Record) -> Faults {
    let [area, ten_year_area] = [four(r, 4), four(r, 24)];
    let densities: [u16; 2] = twos(r, 8);
    let shares: [u16; 6] = twos(r, 12);
    let ten_year_densities: [u16; 2] = twos(r, 28);
    let [decay, decay_carbon] = twos(r, 32);
    let [on_site, _, _, off_site, _, _] = shares;
    Faults {
        limit: (area > MOST_AREA)
            | (ten_year_area > MOST_AREA)
            | any_above(densities, MOST_DENSITY)
            | any_above(ten_year_densities, MOST_DENSITY)
            | any_above(shares, MOST_FRACTION)
            | any_above([decay, decay_carbon], MOST_FRACTION),
        // Three numbers of two bytes: their sum needs the wider word.
        fractions: u32::from(on_site) + u32::from(off_site) + u32::from(decay)
            > u32::from(MOST_FRACTION),
        trees: false,
    }
}

/// "unit code: 0 land, 1 scattered trees" is a field with limit 1, so another
/// code is number 6, in any edition: "14 [..] for code 1 in edition 3 [..]; code 2 or
/// above stays 6" (02, §12).
fn stock_faults(edition: u16, r: &Record) -> Faults {
    let limits = only_limit(
        (unit_code(r) > LAST_UNIT_CODE)
            | (two(r, 6) > MOST_RATE)
            | (four(r, 8) > MOST_AMOUNT)
            | (two(r, 12) > MOST_FRACTION),
    );
    Faults {
        trees: edition == WITHOUT_TREES && unit_code(r) == TREES,
        ..limits
    }
}

fn harvest_faults(r: &Record) -> Faults {
    only_limit(
        (four(r, 4) > MOST_AMOUNT)
            | (two(r, 8) > MOST_RATE)
            | (four(r, 12) > MOST_AMOUNT)
            | (four(r, 16) > MOST_AMOUNT),
    )
}

fn parameter_faults(r: &Record) -> Faults {
    only_limit(any_above(twos::<6>(r, 4), MOST_FRACTION))
}

/// "in the units and limits of land stock rows", for each age of land.
fn abandoned_faults(r: &Record) -> Faults {
    let above = |area: usize| {
        (four(r, area) > MOST_AMOUNT)
            | (two(r, area + 4) > MOST_RATE)
            | (two(r, area + 6) > MOST_FRACTION)
    };
    only_limit(above(4) | above(12))
}

/// "fields limited as 01's like fields": area and density as in a conversion
/// record; six fractions and five ratios have the limit of all such.
fn savanna_faults(r: &Record) -> Faults {
    only_limit(
        (four(r, 4) > MOST_AREA)
            | (two(r, 8) > MOST_DENSITY)
            | any_above(twos::<11>(r, 10), MOST_FRACTION),
    )
}

/// Land system and soil type may be any number of two bytes; two areas, the native
/// carbon and three factors have limits of their own.
fn soil_faults(r: &Record) -> Faults {
    only_limit(
        (four(r, 8) > MOST_SOIL_AREA)
            | (four(r, 12) > MOST_SOIL_AREA)
            | (two(r, 16) > MOST_NATIVE_CARBON)
            | any_above(twos::<3>(r, 18), MOST_FACTOR),
    )
}

/// "production (0.1 kt, to 10,000,000), residue ratio (0.01, to 1,000), dry matter, burned
/// and oxidised fractions (0.001), carbon fraction (0.0001, to 10,000), N/C and four ratios"
/// (02, §14).
fn crop_faults(r: &Record) -> Faults {
    only_limit(
        (four(r, 4) > MOST_PRODUCTION)
            | (two(r, 8) > MOST_RESIDUES)
            | any_above(twos::<3>(r, 10), MOST_FRACTION)
            | (two(r, 16) > MOST_CROP_CARBON)
            | any_above(twos::<5>(r, 18), MOST_FRACTION),
    )
}

/// Number 7 is about conversion records alone, and 14 about stock.
fn only_limit(limit: bool) -> Faults {
    Faults {
        limit,
        trees: false,
        fractions: false,
    }
}
