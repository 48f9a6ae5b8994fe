//! Worksheets 5-1, 5-2 and 5-3 of the paper (01), 5-4 (02, §1), 4-3 (02, §5, in
//! `savanna`), 5-5 (02, §11, in `soil`) and 4-4 (02, §14, in `crop`), in whole numbers, with
//! the count of thinner periods (02, §3) and that of scattered trees (02, §12), and where
//! every tonne of dry matter went (02, §13, in `matter`).
//!
//! The largest values at the limits say how wide each figure must be:
//! E 3.2 x 10^15, K 3.84 x 10^12, L 3.2 x 10^14, O 3.84 x 10^17, 11 P
//! 4.224 x 10^18 below zero and 3.52 x 10^18 above, the uptake 6.4 x 10^15 and 11
//! times that fit 64 bits, and so does one conversion row (10^19, unsigned).
//! A sum of rows (3.2 x 10^20) doesn't, nor do the numerators of the gases; the
//! widest, 23 C x N/C x ratio, is 7.36 x 10^27 and well inside 128 bits.

use crate::crop;
use crate::gases::{Ratios, Released};
use crate::judge::{check, four, two, Checked, Record, Refusal};
use crate::land::{Conversion, Period, Share};
use crate::matter::{matter, Matter, NAMES};
use crate::rounding::Tonnes;
use crate::savanna;
use crate::soil;
use crate::text::{Text, FIGURES};

/// Every figure that isn't a plain sum or turn of another.
#[derive(Clone, Copy, Debug, PartialEq, Eq)]
pub struct Worksheets {
    pub e: u64,
    pub k: u64,
    pub l: u64,
    pub m: i64,
    pub o: i64,
    pub p: i64,
    pub q: i64,
    pub onsite: u128,
    pub offsite: u128,
    pub decay: u128,
    pub co2: u64,
    pub ch4: u64,
    pub co: u64,
    pub n2o: u64,
    pub nox: u64,
    pub uptake: u64,
    pub uptake_co2: u64,
    pub thinner: u64,
    pub savanna_carbon: u128,
    pub savanna_ch4: u64,
    pub savanna_co: u64,
    pub savanna_n2o: u64,
    pub savanna_nox: u64,
    pub soil: i64,
    pub soil_change: i64,
    pub scattered: u64,
    pub matter: Matter,
    pub crop_carbon: u128,
    pub crop_ch4: u64,
    pub crop_co: u64,
    pub crop_n2o: u64,
    pub crop_nox: u64,
}

/// The worksheets of a return, or its refusal.
pub fn sheets(bytes: &[u8]) -> Result<Worksheets, Refusal> {
    check(bytes).map(Worksheets::of)
}

/// The text that the program `sheets` prints for these bytes.
pub fn text(bytes: &[u8]) -> Text {
    let mut text = Text::new();
    match sheets(bytes) {
        Ok(figures) => figures.print(&mut text),
        Err(refusal) => text.refused(refusal),
    }
    text
}

/// Puts the text at the front of `room` and gives its length, or gives 0 and
/// leaves `room` alone when it is too short.
pub fn lines(bytes: &[u8], room: &mut [u8]) -> usize {
    text(bytes).put_into(room)
}

/// How many numbers C gets for all figures, three for each.
pub const NUMBERS: usize = 3 * FIGURES;

/// As C asks for the figures: 0 and their numbers at the front of `room`, or
/// 1,000 times the refusal number plus the place and `room` as it was.
pub fn figures(bytes: &[u8], room: &mut [u64]) -> u32 {
    match (sheets(bytes), room.get_mut(..NUMBERS)) {
        (Err(refusal), _) => refusal.answer(),
        (Ok(_), None) => SHORT.answer(),
        (Ok(figures), Some(front)) => {
            front.copy_from_slice(figures.numbers().as_flattened());
            0
        }
    }
}

/// "lent room too short", from C with place 0.
pub(crate) const SHORT: Refusal = Refusal {
    number: 9,
    place: 0,
};

/// All that the worksheets take from a return, exact.
#[derive(Clone, Copy)]
pub(crate) struct Sums {
    pub(crate) e: u64,
    pub(crate) k: u64,
    pub(crate) l: u64,
    pub(crate) onsite: u128,
    pub(crate) offsite: u128,
    pub(crate) decay: u128,
    uptake: u64,
    /// "the number of (row, period) pairs with after above before"
    thinner: u64,
    savannas: Released,
    /// Soil carbon now less that of twenty years ago.
    soil: i64,
    /// Stock rows of scattered trees.
    scattered: u64,
    pub(crate) matter: Matter,
    crops: Released,
    /// N, CH4, CO, N/C, N2O and NOx.
    parameters: [u16; 6],
}

impl Sums {
    pub(crate) fn of(checked: Checked) -> Self {
        let mut thinner = 0;
        let [mut onsite, mut offsite, mut decay] = [0u128; 3];
        for row in checked.records(1).map(Conversion::of) {
            onsite += u128::from(carbon(row.year, row.on_site));
            offsite += u128::from(carbon(row.year, row.off_site));
            decay += u128::from(carbon(row.ten_years, row.decay));
            thinner += u64::from(row.year.is_thinner()) + u64::from(row.ten_years.is_thinner());
        }
        let parameters = checked.parameters();
        Sums {
            e: checked.records(2).map(grown).sum(),
            k: checked.wood.k,
            l: checked.wood.l,
            onsite,
            offsite,
            decay,
            uptake: checked.records(5).map(regrown).sum(),
            thinner,
            savannas: savanna::released(checked.records(6)),
            soil: soil::gained(checked.records(7)),
            scattered: checked.counts.scattered.into(),
            matter: matter(checked),
            crops: crop::released(checked.records(8)),
            parameters: [4, 6, 8, 10, 12, 14].map(|at| two(parameters, at)),
        }
    }

    /// "M, O then never fall below zero" (02, §8), since number 12 comes before.
    pub(crate) fn m(&self) -> i64 {
        100 * self.k as i64 - self.l as i64
    }

    fn o(&self) -> i64 {
        self.m() * i64::from(self.parameters[0])
    }

    pub(crate) fn p(&self) -> i64 {
        100 * self.e as i64 - self.o()
    }

    /// Q, co2, ch4, co, n2o, nox, uptake_co2, the gases of savannas, the yearly change of
    /// soils and the gases of crops before they are rounded.
    fn tonnes(&self) -> [Tonnes; ROUNDED.len() - 1] {
        let all = (self.onsite + self.offsite + self.decay) as i128;
        let [ch4, co, n2o, nox] = self.gases();
        let [savanna_ch4, savanna_co, savanna_n2o, savanna_nox] = savanna::tonnes(&self.savannas);
        let [crop_ch4, crop_co, crop_n2o, crop_nox] = crop::tonnes(&self.crops);
        [
            Tonnes::of(11 * self.p(), 3_000_000),
            Tonnes::of(11 * all, 3_000_000_000),
            ch4,
            co,
            n2o,
            nox,
            // In 10^-7 kt C = 10^-4 t C, "then CO2 by 11/3, rounded once".
            Tonnes::of(11 * self.uptake, 30_000),
            savanna_ch4,
            savanna_co,
            savanna_n2o,
            savanna_nox,
            soil::yearly(self.soil),
            crop_ch4,
            crop_co,
            crop_n2o,
            crop_nox,
        ]
    }

    /// "5-3, from on-site carbon C only": by one ratio it is in 10^-15 kt = 10^-12 t.
    fn gases(&self) -> [Tonnes; 4] {
        let [_, ch4, co, nitrogen, n2o, nox] = self.parameters;
        let ratios = Ratios {
            nitrogen,
            ch4,
            co,
            n2o,
            nox,
        };
        Released::of([(self.onsite, ratios)]).tonnes(1_000_000_000_000)
    }
}

/// The figures that are rounded.
pub const ROUNDED: [&str; 17] = [
    "Q",
    "report",
    "co2",
    "ch4",
    "co",
    "n2o",
    "nox",
    "uptake_co2",
    "savanna_ch4",
    "savanna_co",
    "savanna_n2o",
    "savanna_nox",
    "soil_change",
    "crop_ch4",
    "crop_co",
    "crop_n2o",
    "crop_nox",
];
/// Those of them that may be below zero.
pub const SIGNED: [&str; 3] = ["Q", "report", "soil_change"];

/// Each of [`ROUNDED`] before it is rounded.
pub fn exact_tonnes(checked: Checked) -> [Tonnes; ROUNDED.len()] {
    let [q, rest @ ..] = Sums::of(checked).tonnes();
    let mut exact = [q; ROUNDED.len()];
    // The report is -Q.
    exact[1] = Tonnes::of(-q.above, q.below);
    exact[2..].copy_from_slice(&rest);
    exact
}

impl Worksheets {
    pub fn of(checked: Checked) -> Self {
        let sums = Sums::of(checked);
        let rounded = sums.tonnes().map(Tonnes::rounded);
        // Only P and the soils go below zero.
        let [q, .., soil_change, _, _, _, _] = rounded;
        let [_, co2, ch4, co, n2o, nox, uptake_co2, burned @ ..] = rounded.map(i64::unsigned_abs);
        let [savanna_ch4, savanna_co, savanna_n2o, savanna_nox, _, crops @ ..] = burned;
        let [crop_ch4, crop_co, crop_n2o, crop_nox] = crops;
        Worksheets {
            e: sums.e,
            k: sums.k,
            l: sums.l,
            m: sums.m(),
            o: sums.o(),
            p: sums.p(),
            q,
            onsite: sums.onsite,
            offsite: sums.offsite,
            decay: sums.decay,
            co2,
            ch4,
            co,
            n2o,
            nox,
            uptake: sums.uptake,
            uptake_co2,
            thinner: sums.thinner,
            savanna_carbon: sums.savannas.carbon,
            savanna_ch4,
            savanna_co,
            savanna_n2o,
            savanna_nox,
            soil: sums.soil,
            soil_change,
            scattered: sums.scattered,
            matter: sums.matter,
            crop_carbon: sums.crops.carbon,
            crop_ch4,
            crop_co,
            crop_n2o,
            crop_nox,
        }
    }

    /// "R is their sum."
    pub fn r(&self) -> u128 {
        self.onsite + self.offsite
    }

    /// "The reported figure is -Q: emissions are positive."
    pub fn report(&self) -> i64 {
        -self.q
    }

    /// Each with its name and a space, in the paper's order; "requested figures print
    /// after 01's lines".
    #[inline]
    fn figures(&self) -> [(&'static str, Figure); FIGURES] {
        use Figure::{Above, Signed, Wide};
        [
            ("E ", Above(self.e)),
            ("K ", Above(self.k)),
            ("L ", Above(self.l)),
            ("M ", Signed(self.m)),
            ("O ", Signed(self.o)),
            ("P ", Signed(self.p)),
            ("Q ", Signed(self.q)),
            ("report ", Signed(self.report())),
            ("onsite ", Wide(self.onsite)),
            ("offsite ", Wide(self.offsite)),
            ("R ", Wide(self.r())),
            ("decay ", Wide(self.decay)),
            ("co2 ", Above(self.co2)),
            ("ch4 ", Above(self.ch4)),
            ("co ", Above(self.co)),
            ("n2o ", Above(self.n2o)),
            ("nox ", Above(self.nox)),
            ("uptake ", Above(self.uptake)),
            ("uptake_co2 ", Above(self.uptake_co2)),
            ("thinner ", Above(self.thinner)),
            ("savanna_carbon ", Wide(self.savanna_carbon)),
            ("savanna_ch4 ", Above(self.savanna_ch4)),
            ("savanna_co ", Above(self.savanna_co)),
            ("savanna_n2o ", Above(self.savanna_n2o)),
            ("savanna_nox ", Above(self.savanna_nox)),
            ("soil ", Signed(self.soil)),
            ("soil_change ", Signed(self.soil_change)),
            ("scattered ", Above(self.scattered)),
            (NAMES[0], Above(self.matter[0])),
            (NAMES[1], Above(self.matter[1])),
            (NAMES[2], Above(self.matter[2])),
            (NAMES[3], Above(self.matter[3])),
            (NAMES[4], Above(self.matter[4])),
            ("crop_carbon ", Wide(self.crop_carbon)),
            ("crop_ch4 ", Above(self.crop_ch4)),
            ("crop_co ", Above(self.crop_co)),
            ("crop_n2o ", Above(self.crop_n2o)),
            ("crop_nox ", Above(self.crop_nox)),
        ]
    }

    /// Three numbers for each figure, in the order of the lines: 1 below zero
    /// and else 0, then the upper and the lower 64 bits of its size.
    pub fn numbers(&self) -> [[u64; 3]; FIGURES] {
        self.figures().map(|(_, figure)| match figure {
            Figure::Above(value) => [0, 0, value],
            Figure::Signed(value) => [u64::from(value < 0), 0, value.unsigned_abs()],
            Figure::Wide(value) => [0, (value >> 64) as u64, value as u64],
        })
    }

    /// One line for each figure.
    pub fn print(&self, text: &mut Text) {
        for (name, figure) in self.figures() {
            match figure {
                Figure::Above(value) => text.line(name, value),
                Figure::Signed(value) => text.signed_line(name, value),
                Figure::Wide(value) => text.wide_line(name, value),
            }
        }
    }
}

/// A figure as it is printed: never below zero, perhaps below zero, or beyond one word.
enum Figure {
    Above(u64),
    Signed(i64),
    Wide(u128),
}

/// Amount x rate x carbon fraction of a stock record. The unit code changes
/// nothing: "nothing is multiplied".
fn grown(r: &Record) -> u64 {
    u64::from(four(r, 8)) * u64::from(two(r, 6)) * u64::from(two(r, 12))
}

/// Area x rate x carbon fraction of an abandoned record, for up to twenty years
/// and for longer: at most 2 x 10^14.
fn regrown(r: &Record) -> u64 {
    let age =
        |area| u64::from(four(r, area)) * u64::from(two(r, area + 4)) * u64::from(two(r, area + 6));
    age(4) + age(12)
}

/// Area x (before - after), the difference as it counts.
fn cleared(period: Period) -> u64 {
    u64::from(period.area) * u64::from(period.difference())
}

/// One row's carbon: at most 10^19.
pub(crate) fn carbon(period: Period, share: Share) -> u64 {
    cleared(period)
        * u64::from(share.fraction)
        * u64::from(share.oxidised)
        * u64::from(share.carbon)
}

#[cfg(test)]
#[path = "sheets_tests.rs"]
mod tests;
