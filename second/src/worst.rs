//! A search for returns whose doubles round as badly as can be found.
//!
//! Everything is measured on the bytes of a whole return, with the same
//! functions as everywhere else.

use crate::bound::{holds, ratio};
use crate::doubles::subtotals;
use crate::make::{good_ids, Rows, AFTER, BEFORE};
use crate::rng::Rng;
use crate::sheets::sheets;

/// A subtotal, by its code in the paper.
#[derive(Clone, Copy, Debug, PartialEq, Eq)]
pub enum Which {
    OnSite,
    OffSite,
    Decay,
}

impl Which {
    pub const ALL: [Which; 3] = [Which::OnSite, Which::OffSite, Which::Decay];

    pub fn any(rng: &mut Rng) -> Self {
        rng.pick(&Self::ALL)
    }

    /// Where area, before, fraction, oxidised and carbon fraction stand in a
    /// row. After is zero. Decay has no oxidised of its own.
    fn places(self) -> [Option<usize>; 5] {
        match self {
            Which::OnSite => [Some(1), Some(BEFORE[0]), Some(4), Some(5), Some(6)],
            Which::OffSite => [Some(1), Some(BEFORE[0]), Some(7), Some(8), Some(9)],
            Which::Decay => [Some(10), Some(BEFORE[1]), Some(13), None, Some(14)],
        }
    }
}

/// The five factors of one row, in the order they are multiplied.
type Factors = [u32; 5];

const LIMITS: Factors = [1_000_000, 10_000, 1_000, 1_000, 1_000];

/// What a search has found.
pub struct Found {
    pub rows: Rows,
    /// Distance times 2^53 over the exact subtotal.
    pub ratio: f64,
    /// Whether every return on the way kept demand 3.
    pub kept: bool,
}

fn rows_of(ids: &[u32], which: Which, factors: &[Factors]) -> Rows {
    let mut rows = Rows {
        parameters: vec![[0; 6]],
        ..Rows::default()
    };
    for (&id, factors) in ids.iter().zip(factors) {
        let mut row = [0; 15];
        row[0] = id;
        for (place, &factor) in which.places().into_iter().zip(factors) {
            if let Some(place) = place {
                row[place] = factor;
            }
        }
        rows.conversion.push(row);
    }
    // The harvest changes no carbon, so that any will do.
    rows.cover_with_more(&mut Rng::new(1), 0);
    rows
}

/// The ratio of one subtotal, and whether demand 3 holds.
fn measure(rows: &Rows, which: Which) -> (f64, bool) {
    let bytes = rows.to_bytes();
    let exact = sheets(&bytes).expect("the rows are good");
    let exact = [exact.onsite, exact.offsite, exact.decay][which as usize];
    let double = subtotals(&bytes).expect("the rows are good").in_order()[which as usize];
    let held = holds(double, exact, rows.conversion.len() as u32);
    (ratio(double, exact), held)
}

/// A row just above 2^63, where a step between doubles is largest against the
/// value, with all factors odd so that the products don't fit 53 bits.
fn top_row(rng: &mut Rng, which: Which) -> Factors {
    let odd_near = |rng: &mut Rng, limit: u32, off: u32| (limit - rng.from_to(0, off)) | 1;
    let mut factors = [
        0,
        odd_near(rng, 9_999, 40),
        odd_near(rng, 999, 6),
        odd_near(rng, 999, 6),
        1_000 - rng.from_to(0, 6),
    ];
    if which == Which::Decay {
        factors[3] = 1_000;
    }
    let others: u64 = factors[1..].iter().map(|&f| u64::from(f)).product();
    let area = (1u64 << 63).div_ceil(others) + u64::from(rng.from_to(0, 40));
    factors[0] = (area as u32 | 1).min(LIMITS[0]);
    factors
}

/// A row a little below half a step, or a little above.
fn small_row(rng: &mut Rng, which: Which, up: bool) -> Factors {
    let half = 1_024;
    let off = rng.from_to(1, 3);
    let value = if up { half + off } else { half - off };
    match which {
        // Oxidised is 1,000: the value must be a multiple of that.
        Which::Decay => [if up { 2 } else { 1 }, 1, 1, 1_000, 1],
        _ => [value, 1, 1, 1, 1],
    }
}

fn steep_factors(rng: &mut Rng, rows: usize, which: Which) -> Vec<Factors> {
    let up = rng.one_in(2);
    let mut factors = vec![top_row(rng, which)];
    factors.extend((1..rows).map(|_| small_row(rng, which, up)));
    factors
}

fn random_factors(rng: &mut Rng, rows: usize) -> Vec<Factors> {
    let row = |_| LIMITS.map(|limit| rng.from_to(limit / 2, limit));
    (0..rows).map(row).collect()
}

/// Rows with one large row at the front and rows near half a step after it.
pub fn steep(rng: &mut Rng, rows: usize, which: Which) -> Rows {
    let ids = good_ids(rng, rows);
    let factors = steep_factors(rng, rows, which);
    let mut rows = rows_of(&ids, which, &factors);
    // The densities may as well stand higher, with the same difference.
    for row in &mut rows.conversion {
        for (before, after) in BEFORE.into_iter().zip(AFTER) {
            let lift = rng.from_to(0, 10_000 - row[before]);
            row[before] += lift;
            row[after] += lift;
        }
    }
    rows
}

/// Changes one factor of one row.
fn change(rng: &mut Rng, factors: &mut [Factors]) {
    let row = rng.below(factors.len());
    let at = rng.below(5);
    let value = &mut factors[row][at];
    *value = match rng.below(4) {
        0 => rng.from_to(0, LIMITS[at]),
        1 => value.saturating_add(rng.from_to(1, 9)),
        _ => value.saturating_sub(rng.from_to(1, 9)),
    }
    .min(LIMITS[at]);
}

/// Climbs from the best of several starts, `tries` returns in all.
pub fn search(seed: u64, rows: usize, which: Which, steep: bool, tries: usize) -> Found {
    let mut rng = Rng::for_input(seed, rows as u64);
    let ids: Vec<u32> = (0..rows as u32).collect();
    let mut best = (Vec::new(), -1.0);
    let mut kept = true;
    for turn in 0..tries {
        let mut next: Vec<Factors>;
        if turn < tries / 4 {
            next = if steep {
                steep_factors(&mut rng, rows, which)
            } else {
                random_factors(&mut rng, rows)
            };
        } else {
            next = best.0.clone();
            (0..1 + rng.below(2)).for_each(|_| change(&mut rng, &mut next));
        }
        let (ratio, held) = measure(&rows_of(&ids, which, &next), which);
        kept &= held;
        if ratio >= best.1 {
            best = (next, ratio);
        }
    }
    Found {
        rows: rows_of(&ids, which, &best.0),
        ratio: best.1,
        kept,
    }
}

#[cfg(test)]
mod tests {
    use super::*;

    #[test]
    fn the_bound_holds_on_the_way_and_is_nearly_used() {
        for which in Which::ALL {
            for rows in [1, 2, 8] {
                let found = search(71, rows, which, true, 400);
                assert!(found.kept, "{which:?}, {rows} rows");
                let least = match which {
                    Which::Decay => 0.9 * rows as f64,
                    _ => rows as f64 + 0.3,
                };
                assert!(
                    found.ratio > least && found.ratio < (rows + 2) as f64,
                    "{which:?}, {rows} rows: {}",
                    found.ratio
                );
                assert_eq!(measure(&found.rows, which).0, found.ratio);
            }
        }
    }
}
