//! Two returns that "differ only in kind-8 rows, and in the headers and checks that these
//! force" (02, §14).

use crate::make::{fields, later, place_of, CropRow, RowCounts, Rows, BLOCK, CHECK_AT};
use crate::make::{CROPS, MOST_ROWS, WITHOUT_TREES};
use crate::rng::Rng;
use crate::versions::Versions;

/// What the crops of one version are beside those of the other.
#[derive(Clone, Copy, Debug, PartialEq, Eq)]
pub enum Way {
    /// There are none.
    Without,
    /// They were drawn by themselves.
    Others,
    /// One of them is missing.
    OneRow,
    /// One field of one of them is another.
    OneField,
    /// They are the same, and so is all else but perhaps the edition.
    Same,
}

pub const WAYS: [Way; 5] = [
    Way::Without,
    Way::Others,
    Way::OneRow,
    Way::OneField,
    Way::Same,
];

/// Both versions, accepted; at least one has crops.
pub struct Pair {
    pub how: String,
    pub way: Way,
    pub first: Vec<u8>,
    pub second: Vec<u8>,
}

impl Versions for Pair {
    fn how(&self) -> &str {
        &self.how
    }

    fn first(&self) -> &[u8] {
        &self.first
    }

    fn second(&self) -> &[u8] {
        &self.second
    }
}

/// A random pair.
pub fn pair(rng: &mut Rng) -> Pair {
    let others = without_crops(rng);
    let any = rng.pick(&WAYS);
    let way = rng.pick(&[any, any, Way::Without]);
    let crops = drawn(rng);
    let mut versions = [beside(rng, way, &crops), crops];
    if rng.one_in(2) {
        versions.reverse();
    }
    let versions = versions.map(|crop| {
        let mut rows = Rows {
            crop,
            ..others.clone()
        };
        rows.edition = rng.pick(&editions_of(&rows));
        rows
    });
    let [first, second] = &versions;
    Pair {
        how: format!(
            "crops {way:?}, editions {} and {}, {:?} and {:?} rows",
            first.edition,
            second.edition,
            first.counts(),
            second.counts()
        ),
        way,
        first: first.to_bytes(),
        second: second.to_bytes(),
    }
}

/// The rows of the other kinds; now and then such as every edition has, or all blocks.
fn without_crops(rng: &mut Rng) -> Rows {
    let rows = match rng.below(8) {
        0..3 => Rows::good_from_in(rng, 1, 0).moved_to(WITHOUT_TREES),
        3 => Rows::good_later(rng, 25),
        _ => Rows::any_good(rng),
    };
    Rows {
        crop: Vec::new(),
        ..rows
    }
}

/// One crop and more.
fn drawn(rng: &mut Rng) -> Vec<CropRow> {
    let any = 1 + rng.below(MOST_ROWS);
    let mut counts = RowCounts::default();
    let crops = &mut counts[place_of(CROPS.kind).expect("a kind with ids")];
    *crops = rng.pick(&[1, 2, 12, 13, 25, MOST_ROWS, MOST_ROWS, any, any]);
    Rows::good_in_later(rng, counts).crop
}

/// The crops of the other version.
fn beside(rng: &mut Rng, way: Way, crops: &[CropRow]) -> Vec<CropRow> {
    let mut other = crops.to_vec();
    let at = rng.below(other.len());
    match way {
        Way::Without => other.clear(),
        Way::Others => other = drawn(rng),
        Way::OneRow => drop(other.remove(at)),
        Way::OneField => {
            let field = 1 + rng.below(fields(CROPS.kind).len() - 1);
            let (old, most) = (other[at][field], fields(CROPS.kind)[field].most);
            // Another value, the next one or any.
            let more = rng.from_to(1, most);
            other[at][field] = (old + rng.pick(&[1, more])) % (most + 1);
        }
        Way::Same => {}
    }
    other
}

/// The editions that these rows are good in, edition 1 twice.
fn editions_of(rows: &Rows) -> Vec<u16> {
    let good = |edition: &u16| match *edition {
        1 => !later(&rows.counts()),
        WITHOUT_TREES => rows.trees() == 0,
        _ => true,
    };
    [1, 1, 2, 3].into_iter().filter(good).collect()
}

/// Where two returns differ in more than their crops: the first block of another kind that
/// is not alike but for its number of blocks, its edition and its check.
pub fn differ_elsewhere(first: &[u8], second: &[u8]) -> Option<usize> {
    let others = |bytes: &[u8]| -> Vec<Vec<u8>> {
        let others = bytes.chunks(BLOCK).filter(|block| block[0] != CROPS.kind);
        let alike = |block: &[u8]| [&block[..4], &block[8..CHECK_AT]].concat();
        others.map(alike).collect()
    };
    let [first, second] = [first, second].map(others);
    let most = first.len().max(second.len());
    (0..most).find(|&b| first.get(b) != second.get(b))
}

#[cfg(test)]
#[path = "crop_pairs_tests.rs"]
mod tests;
