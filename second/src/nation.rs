//! The national line (02, §10): "a file of returns end to end, up to 500, each cut by
//! the number of blocks in its first header", and the "exact national totals" of those
//! that are accepted.
//!
//! The largest sums at the limits: E 1.6 x 10^18, K 1.92 x 10^15, L 1.6 x 10^17 and M
//! 1.92 x 10^17 would fit 64 bits; P, 1.6 x 10^20, carbon, 1.6 x 10^23, and dry matter,
//! 1.6 x 10^20, don't.

use crate::judge::{check, Refusal};
use crate::matter::{Matter, NAMES};
use crate::rounding::Tonnes;
use crate::sheets::Sums;
use std::fmt::Write;

/// "up to 500", and "a 501st return does the same": it stops the run.
pub const MOST_RETURNS: usize = 500;
/// "a first header that says 0 blocks or more than 16", which is 19 since there are soils
/// (02, §11), and as many as the longest return has since there are crops (02, §14).
pub const MOST_BLOCKS: u16 = 22;
/// What is always enough for C: at most 26 bytes for each of 500 refused returns, and
/// less than 800 for the rest.
pub const NATION_ROOM: usize = 16_000;

const BLOCK: usize = 512;
/// The bytes of a first header up to its number of blocks.
const HEADER: usize = 6;

/// Why a run was stopped.
#[derive(Clone, Copy, Debug, PartialEq, Eq)]
pub enum Stop {
    /// The first header says so many blocks, none or too many.
    Blocks(u16),
    /// The file ends inside a return.
    Short,
    /// There is a 501st return.
    Many,
}

/// A return, and the rest of the file behind it.
type Cut<'a> = (&'a [u8], &'a [u8]);

/// What stands at a position, from 1: a return, or none where the file is at its end.
fn cut(rest: &[u8], position: usize) -> Result<Option<Cut<'_>>, Stop> {
    if rest.is_empty() {
        return Ok(None);
    }
    if position > MOST_RETURNS {
        return Err(Stop::Many);
    }
    let header = rest.get(..HEADER).ok_or(Stop::Short)?;
    let blocks = u16::from_le_bytes([header[4], header[5]]);
    if !(1..=MOST_BLOCKS).contains(&blocks) {
        return Err(Stop::Blocks(blocks));
    }
    rest.split_at_checked(BLOCK * usize::from(blocks))
        .map(Some)
        .ok_or(Stop::Short)
}

/// Exact sums over the accepted returns.
#[derive(Clone, Copy, Debug, Default, PartialEq, Eq)]
pub struct Totals {
    pub e: u128,
    pub k: u128,
    pub l: u128,
    pub m: i128,
    pub p: i128,
    pub onsite: u128,
    pub offsite: u128,
    pub decay: u128,
    /// Where the dry matter went (02, §13).
    pub matter: Matter<u128>,
}

impl Totals {
    fn add(&mut self, sums: &Sums) {
        self.e += u128::from(sums.e);
        self.k += u128::from(sums.k);
        self.l += u128::from(sums.l);
        self.m += i128::from(sums.m());
        self.p += i128::from(sums.p());
        self.onsite += sums.onsite;
        self.offsite += sums.offsite;
        self.decay += sums.decay;
        for (total, part) in self.matter.iter_mut().zip(sums.matter) {
            *total += u128::from(part);
        }
    }

    /// Q and co2 before they are "rounded once from them".
    pub fn tonnes(&self) -> [Tonnes; 2] {
        let carbon = (self.onsite + self.offsite + self.decay) as i128;
        [
            Tonnes::of(11 * self.p, 3_000_000),
            Tonnes::of(11 * carbon, 3_000_000_000),
        ]
    }
}

/// What a file comes to.
#[derive(Clone, Debug, Default, PartialEq, Eq)]
pub struct Nation {
    /// "listed by its position, from 1"
    pub refused: Vec<(usize, Refusal)>,
    /// The position at which the run was stopped, if it was.
    pub stopped: Option<(usize, Stop)>,
    pub accepted: usize,
    pub totals: Totals,
}

impl Nation {
    pub fn of(file: &[u8]) -> Self {
        let mut nation = Nation::default();
        let mut rest = file;
        for position in 1.. {
            match cut(rest, position) {
                Ok(None) => break,
                Ok(Some((one, behind))) => {
                    nation.take(position, one);
                    rest = behind;
                }
                Err(stop) => {
                    nation.stopped = Some((position, stop));
                    break;
                }
            }
        }
        nation
    }

    /// "A refused return [..] adds nothing".
    fn take(&mut self, position: usize, one: &[u8]) {
        match check(one) {
            Err(refusal) => self.refused.push((position, refusal)),
            Ok(checked) => {
                self.accepted += 1;
                self.totals.add(&Sums::of(checked));
            }
        }
    }

    /// The text that the program `nation` prints.
    pub fn text(&self) -> String {
        let mut text = String::new();
        for (position, Refusal { number, place }) in &self.refused {
            line(
                &mut text,
                format_args!("return {position} refused {number} {place}"),
            );
        }
        match self.stopped {
            None => {}
            Some((at, Stop::Blocks(blocks))) => {
                line(&mut text, format_args!("stopped {at} blocks {blocks}"));
            }
            Some((at, Stop::Short)) => line(&mut text, format_args!("stopped {at} short")),
            Some((at, Stop::Many)) => line(&mut text, format_args!("stopped {at} many")),
        }
        line(&mut text, format_args!("accepted {}", self.accepted));
        line(&mut text, format_args!("refused {}", self.refused.len()));
        self.print_figures(&mut text);
        text
    }

    fn print_figures(&self, text: &mut String) {
        let totals = &self.totals;
        let [q, co2] = totals.tonnes().map(Tonnes::rounded);
        line(text, format_args!("E {}", totals.e));
        line(text, format_args!("K {}", totals.k));
        line(text, format_args!("L {}", totals.l));
        line(text, format_args!("M {}", totals.m));
        line(text, format_args!("P {}", totals.p));
        line(text, format_args!("Q {q}"));
        // "The reported figure is -Q: emissions are positive."
        line(text, format_args!("report {}", -q));
        line(text, format_args!("onsite {}", totals.onsite));
        line(text, format_args!("offsite {}", totals.offsite));
        line(text, format_args!("decay {}", totals.decay));
        line(text, format_args!("co2 {co2}"));
        for (name, total) in NAMES.iter().zip(totals.matter) {
            line(text, format_args!("{name}{total}"));
        }
    }
}

/// Each line is ended by a line feed.
fn line(text: &mut String, words: std::fmt::Arguments) {
    writeln!(text, "{words}").expect("a text takes any line");
}

/// As C asks for it: puts the text at the front of `room` and gives its length, or gives
/// 0 and leaves `room` alone when it is too short.
pub fn nation(file: &[u8], room: &mut [u8]) -> usize {
    let text = Nation::of(file).text();
    match room.get_mut(..text.len()) {
        Some(front) => {
            front.copy_from_slice(text.as_bytes());
            text.len()
        }
        None => 0,
    }
}

#[cfg(test)]
#[path = "nation_tests.rs"]
mod tests;
