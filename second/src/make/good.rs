//! Random good rows.

use super::burnt::style_burnt;
use super::crops::CROPS;
use super::draw::{draw_row, good_ids, good_value};
use super::savannas::style_savannas;
use super::soils::style_soils;
use super::trees::style_stock;
use super::{fields, place_of, RowCounts, Rows, AFTER, BEFORE};
use super::{FIRST_WITH_IDS, LATER, LATER_EDITIONS};
use super::{MOST_ROWS, SOIL_AREAS, SUMMED, WITH_IDS};
use crate::rng::Rng;

const MOST_DENSITY: u32 = 10_000;

impl Rows {
    /// Good rows of edition 1, this many of each of the first three kinds. More
    /// than 32 are good in everything but their number.
    pub fn good(rng: &mut Rng, [conversion, stock, harvest]: [usize; 3]) -> Self {
        Self::good_in(rng, 1, [conversion, stock, harvest])
    }

    /// As [`Rows::good`], in this edition, and this many of the later kinds: of those
    /// that the counts don't go to, none. These are good in everything but edition 1.
    pub fn good_in(rng: &mut Rng, edition: u16, counts: impl AsRef<[usize]>) -> Self {
        let counts = all_counts(counts.as_ref());
        let of_kind = |kind: usize| place_of(kind as u8 + 1).map_or(1, |place| counts[place]);
        let mut rows = Rows::zeros(edition, std::array::from_fn(of_kind));
        for (kind, list) in (1..).zip(rows.all_mut()) {
            let numbers = fields(kind).len();
            let ids = place_of(kind).map(|place| good_ids(rng, counts[place]));
            for (nth, row) in list.chunks_mut(numbers).enumerate() {
                draw_row(rng, kind, row);
                if let Some(ids) = &ids {
                    row[0] = ids[nth];
                }
            }
        }
        // What else is asked of a kind, or wanted.
        let thinner = rng.pick(&THINNER);
        let burned = rng.pick(&BURNED);
        for row in &mut rows.conversion {
            good_conversion(rng, row, thinner);
            burned.iter().for_each(|&style| burn(rng, row, style));
        }
        style_stock(rng, edition, &mut rows.stock);
        style_savannas(rng, &mut rows);
        style_soils(rng, &mut rows.soil);
        style_burnt(rng, &mut rows, &CROPS);
        rows.cover(rng);
        rows
    }

    /// As [`Rows::good`], in an edition that has these kinds.
    pub fn good_in_any(rng: &mut Rng, counts: RowCounts) -> Self {
        let edition = if later(&counts) {
            rng.pick(&LATER_EDITIONS)
        } else {
            rng.pick(&[1, 1, 2, 3])
        };
        Self::good_in(rng, edition, counts)
    }

    /// As [`Rows::good`], in one of the editions that have the kinds above 4.
    pub fn good_in_later(rng: &mut Rng, counts: impl AsRef<[usize]>) -> Self {
        let edition = rng.pick(&LATER_EDITIONS);
        Self::good_in(rng, edition, counts)
    }

    /// Good rows of any edition with random counts from 0 to 32, the block
    /// borders favoured.
    pub fn any_good(rng: &mut Rng) -> Self {
        Self::good_from(rng, 0)
    }

    /// Good rows of any edition with at least `least` in each of its kinds
    /// with ids.
    pub fn good_from(rng: &mut Rng, least: usize) -> Self {
        let edition = rng.pick(&[1, 1, 2, 3]);
        Self::good_from_in(rng, edition, least)
    }

    /// The same in an edition that has the kinds above 4.
    pub fn good_later(rng: &mut Rng, least: usize) -> Self {
        let edition = rng.pick(&LATER_EDITIONS);
        Self::good_from_in(rng, edition, least)
    }

    /// Good as far as they can be, after this field of a row was changed within its limit:
    /// a large conversion row has to have its harvest, and a soil type its area.
    pub fn make_good_again(&mut self, rng: &mut Rng, kind: u8, field: usize) {
        match kind {
            1 => self.cover_with_more(rng, 0),
            7 if field == SOIL_AREAS[1] => self.even_soils(rng, SOIL_AREAS[1]),
            7 => self.even_soils(rng, SOIL_AREAS[0]),
            _ => {}
        }
    }

    /// The same in this edition.
    pub fn good_from_in(rng: &mut Rng, edition: u16, least: usize) -> Self {
        // Now and then all blocks of the edition, or all rows.
        let least = match rng.below(16) {
            0 => 25,
            1 => MOST_ROWS,
            _ => least,
        };
        let mut counts = WITH_IDS.map(|_| any_count(rng).max(least));
        let later = &mut counts[FIRST_WITH_IDS..];
        if edition == 1 {
            later.fill(0);
        } else if least == 0 && rng.one_in(4) {
            // One of the later kinds alone, or none of them.
            let alone = rng.below(LATER + 1);
            let others = (0..LATER).filter(|&nth| nth != alone);
            others.for_each(|nth| later[nth] = 0);
        }
        Self::good_in(rng, edition, counts)
    }
}

/// With none of the kinds that these counts don't go to.
fn all_counts(front: &[usize]) -> RowCounts {
    let mut counts = RowCounts::default();
    counts[..front.len()].copy_from_slice(front);
    counts
}

/// Whether there are rows of a kind that edition 1 doesn't have.
pub fn later(counts: &RowCounts) -> bool {
    counts[FIRST_WITH_IDS..].iter().any(|&count| count > 0)
}

/// Counts drawn one by one; in half of them there are only the kinds of edition 1.
pub fn drawn_counts(rng: &mut Rng, draw: impl Fn(&mut Rng) -> usize) -> RowCounts {
    let mut counts = WITH_IDS.map(|_| draw(rng));
    if rng.one_in(2) {
        counts[FIRST_WITH_IDS..].fill(0);
    }
    counts
}

fn any_count(rng: &mut Rng) -> usize {
    match rng.below(3) {
        0 => rng.pick(&[0, 1, 2, 11, 12, 13, 23, 24, 25, 31, 32]),
        1 => rng.below(5),
        _ => rng.below(MOST_ROWS + 1),
    }
}

/// In which periods some of a return's rows have more after than before: in
/// neither, in one alone, or in both.
const THINNER: [[bool; 2]; 4] = [[false, false], [true, false], [false, true], [true, true]];

/// In which of the five ways all dry matter of a return goes (02, §13), where it is one:
/// the share that burns, and what is oxidised of it.
type Style = Option<(usize, u32)>;
const BURNED: [Option<Style>; 16] = {
    let mut styles = [None; 16];
    styles[0] = Some(Some((0, 1_000)));
    styles[1] = Some(Some((0, 0)));
    styles[2] = Some(Some((1, 1_000)));
    styles[3] = Some(Some((1, 0)));
    styles[4] = Some(None);
    styles
};

/// All of a row burns in this way, or none of it.
fn burn(rng: &mut Rng, row: &mut [u32; 15], style: Style) {
    SUMMED[..2].iter().for_each(|&at| row[at] = 0);
    if let Some((share, oxidised)) = style {
        SUMMED.iter().for_each(|&at| row[at] = 0);
        row[SUMMED[share]] = 1_000;
        row[SUMMED[share] + 1] = oxidised;
    }
    // Something to burn, mostly.
    if !rng.one_in(4) {
        row[1] = row[1].max(1);
        row[BEFORE[0]] = row[BEFORE[0]].max(1);
        row[AFTER[0]] = row[AFTER[0]].min(row[BEFORE[0]] - 1);
    }
}

/// Periods that are thinner or not, and fractions that hold.
fn good_conversion(rng: &mut Rng, row: &mut [u32; 15], thinner: [bool; 2]) {
    for period in 0..2 {
        row[AFTER[period]] = good_value(rng, row[BEFORE[period]]);
        if thinner[period] && rng.one_in(3) {
            thin(rng, row, period);
        }
    }
    // Each takes from what the ones before it left, in any order.
    let mut left = 1_000;
    let turn = rng.below(3);
    for i in 0..3 {
        let at = SUMMED[(i + turn) % 3];
        row[at] = good_value(rng, left);
        left -= row[at];
    }
}

/// Makes the density after larger than that before, by one, by any number or up
/// to the limit.
pub fn thin(rng: &mut Rng, row: &mut [u32; 15], period: usize) {
    let before = row[BEFORE[period]].min(MOST_DENSITY - 1);
    row[BEFORE[period]] = before;
    row[AFTER[period]] = match rng.below(4) {
        0 => MOST_DENSITY,
        1 => rng.from_to(before + 1, MOST_DENSITY),
        _ => before + 1,
    };
}
