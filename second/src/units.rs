//! The unit of each field and its decimals in a text (rows as text, rule 10), a line for each
//! kind of rows.

use crate::kinds::KINDS;
use crate::make::{TREES, UNIT_CODE};

/// How a field stands in a text.
#[derive(Clone, Copy, Debug, PartialEq, Eq)]
pub enum Spelling {
    /// As a number with so many decimals.
    Decimals(usize),
    /// As one of [`UNIT_WORDS`].
    Unit,
}

/// A stock row's unit as a word, by its code.
pub const UNIT_WORDS: [&str; 2] = ["land", "trees"];

/// Decimals, and the unit's name where it has one.
type Measure = (usize, &'static str);

const ID: Measure = (0, "");
const CODE: Measure = (0, "");
const AREA: Measure = (2, "kha");
const DENSITY: Measure = (1, "t/ha");
const SHARE: Measure = (3, "");
const RATE: Measure = (2, "t/ha");
const KT: Measure = (1, "kt");
const SOIL_AREA: Measure = (3, "Mha");
const FACTOR: Measure = (2, "");

const CONVERSION: [Measure; 15] = [
    ID, AREA, DENSITY, DENSITY, SHARE, SHARE, SHARE, SHARE, SHARE, SHARE, AREA, DENSITY, DENSITY,
    SHARE, SHARE,
];
/// The decimals are those of land.
const STOCK: [Measure; 5] = [
    ID,
    (0, "land or trees"),
    (2, "t/ha or kt per 1000 trees"),
    (2, "kha or 1000 trees"),
    SHARE,
];
const HARVEST: [Measure; 5] = [ID, (1, "1000 m3"), (3, "t/m3"), KT, KT];
const PARAMETERS: [Measure; 6] = [SHARE; 6];
const ABANDONED: [Measure; 7] = [ID, AREA, RATE, SHARE, AREA, RATE, SHARE];
const SAVANNA: [Measure; 14] = [
    ID, AREA, DENSITY, SHARE, SHARE, SHARE, SHARE, SHARE, SHARE, SHARE, SHARE, SHARE, SHARE, SHARE,
];
const SOIL: [Measure; 9] = [
    ID, CODE, CODE, SOIL_AREA, SOIL_AREA, DENSITY, FACTOR, FACTOR, FACTOR,
];
const CROP: [Measure; 12] = [
    ID,
    KT,
    (2, ""),
    SHARE,
    SHARE,
    SHARE,
    (4, ""),
    SHARE,
    SHARE,
    SHARE,
    SHARE,
    SHARE,
];

const MEASURES: [&[Measure]; KINDS.len()] = [
    &CONVERSION,
    &STOCK,
    &HARVEST,
    &PARAMETERS,
    &ABANDONED,
    &SAVANNA,
    &SOIL,
    &CROP,
];

/// The kind whose rows have a unit as a word, and its fields that go by that unit, with
/// their decimals where they are of trees.
const WITH_UNIT: u8 = 2;
const OF_TREES: [(usize, usize); 2] = [(2, 4), (3, 0)];

/// How a field of a kind is spelled, in a row that has these numbers before it.
pub fn spelling(kind: u8, field: usize, before: &[u32]) -> Spelling {
    let (decimals, _) = measure(kind, field);
    if kind != WITH_UNIT {
        return Spelling::Decimals(decimals);
    }
    let of_trees = OF_TREES.iter().find(|(other, _)| *other == field);
    match of_trees {
        _ if field == UNIT_CODE => Spelling::Unit,
        Some(&(_, decimals)) if before[UNIT_CODE] == TREES => Spelling::Decimals(decimals),
        _ => Spelling::Decimals(decimals),
    }
}

/// The name of a field's unit, if it has one.
pub fn unit(kind: u8, field: usize) -> Option<&'static str> {
    let (_, unit) = measure(kind, field);
    (!unit.is_empty()).then_some(unit)
}

fn measure(kind: u8, field: usize) -> Measure {
    MEASURES[usize::from(kind) - 1][field]
}

#[cfg(test)]
mod tests {
    use super::*;

    /// A name for each field, and a measure for each name.
    #[test]
    fn each_field_has_one() {
        for (kind, measures) in KINDS.iter().zip(MEASURES) {
            assert_eq!(kind.fields.len(), measures.len(), "{}", kind.name);
        }
    }

    /// Rule 10, by the names of the fields.
    #[test]
    fn decimals_by_name() {
        for (kind, of) in (1..).zip(&KINDS) {
            for (nth, field) in of.fields.iter().enumerate() {
                let due = match (of.name, field.name) {
                    (_, "id" | "land_system" | "soil_type") => 0,
                    ("stock", "unit_code") => continue,
                    ("soil", "area_now" | "area_then") => 3,
                    ("soil", "native") => 1,
                    ("soil", _) => 2,
                    ("crop", "production") => 1,
                    ("crop", "residue_ratio") => 2,
                    ("crop", "carbon_fraction") => 4,
                    ("harvest", "G") => 3,
                    ("harvest", _) => 1,
                    ("stock", "rate" | "amount") => 2,
                    (_, name) if name.contains("area") => 2,
                    (_, name) if name.contains("growth_rate") => 2,
                    (_, "density") => 1,
                    ("conversion", name) if name.ends_with("before") => 1,
                    ("conversion", name) if name.ends_with("after") => 1,
                    _ => 3,
                };
                let land = [0; 15];
                let found = spelling(kind, nth, &land[..nth]);
                assert_eq!(found, Spelling::Decimals(due), "{} {}", of.name, field.name);
            }
        }
    }

    #[test]
    fn trees_have_their_own() {
        let trees = [9, TREES, 0, 0];
        let all: Vec<Spelling> = (0..5).map(|nth| spelling(2, nth, &trees)).collect();
        let [none, three, four] = [0, 3, 4].map(Spelling::Decimals);
        assert_eq!(all, [none, Spelling::Unit, four, none, three]);
        let other = [9, 1, 0, 0];
        assert_eq!(spelling(3, 3, &other), Spelling::Decimals(1));
    }

    #[test]
    fn units_by_hand() {
        for (kind, due) in (1..).zip([
            ",kha,t/ha,t/ha,,,,,,,kha,t/ha,t/ha,,",
            ",land or trees,t/ha or kt per 1000 trees,kha or 1000 trees,",
            ",1000 m3,t/m3,kt,kt",
            ",,,,,",
            ",kha,t/ha,,kha,t/ha,",
            ",kha,t/ha,,,,,,,,,,,",
            ",,,Mha,Mha,t/ha,,,",
            ",kt,,,,,,,,,,",
        ]) {
            let fields = 0..KINDS[usize::from(kind) - 1_usize].numbers;
            let all: Vec<&str> = fields
                .map(|nth| unit(kind, nth).unwrap_or_default())
                .collect();
            assert_eq!(all.join(","), due);
        }
    }
}
