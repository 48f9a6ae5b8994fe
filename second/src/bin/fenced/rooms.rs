//! The rooms of a call: how long they are, and what stands in them before it.

use second::explain;
use second::heaviest::HEAVIEST_ROOM;
use second::judge::{judge, Verdict};
use second::kinds::{COUNTS_ROOM, KINDS, RETURN_ROOM, ROWS_ROOM};
use second::lists::RowLists;
use second::make::MOST_BLOCKS;
use second::nation::Nation;
use second::reader::ends;
use second::rng::Rng;
use second::sheets::{text, NUMBERS as FIGURES};
use second::table52::{COUNTRIES, DEFAULTS, TABLE52_ROOM, ZONES};

/// How much longer than needed a room may be.
const LONGER: usize = 20;

/// How the rooms of a call fit what is to go into them.
#[derive(Clone, Copy, Debug)]
pub enum Fit {
    Exact,
    Short,
    Longer,
}

impl Fit {
    pub fn length(self, needed: usize, rng: &mut Rng) -> usize {
        match self {
            Fit::Exact => needed,
            Fit::Short if needed == 0 => 0,
            // By one, or by more.
            Fit::Short if rng.one_in(2) => needed - 1,
            Fit::Short => rng.below(needed),
            Fit::Longer => needed + 1 + rng.below(LONGER),
        }
    }
}

/// What stands in the rooms before a call, and the code of a subtotal.
pub struct Rooms {
    pub counts: Vec<u32>,
    pub figures: Vec<u64>,
    pub text: Vec<u8>,
    pub code: u32,
    pub double: Vec<u8>,
    pub reasons: Vec<u8>,
    pub heaviest: Vec<u64>,
    pub rows: Vec<u32>,
    pub row_counts: Vec<u32>,
    pub blocks: Vec<u8>,
    pub size: Vec<u32>,
    /// A country and a zone of table 5-2, mostly on it.
    pub entry: (u32, u32),
    pub figures52: Vec<i32>,
    pub defaults: Vec<u32>,
    /// For the text of a file of returns.
    pub nation: Vec<u8>,
}

impl Rooms {
    /// An entry with the room for it.
    pub fn entry(&self) -> (u32, u32, &[i32]) {
        (self.entry.0, self.entry.1, &self.figures52)
    }

    pub fn drawn((bytes, file): (&[u8], &[u8]), lists: &RowLists, fit: Fit, rng: &mut Rng) -> Self {
        let code = match rng.below(8) {
            0 => 3 + rng.below(2) as u32,
            1 => rng.word(),
            _ => rng.below(3) as u32,
        };
        let (rows, row_counts) = row_lengths(bytes, fit, rng);
        let (blocks, size) = block_lengths(lists, fit, rng);
        Rooms {
            counts: words(fit.length(COUNTS_ROOM, rng), rng),
            figures: long_words(fit.length(FIGURES, rng), rng),
            text: any_bytes(fit.length(text(bytes).as_bytes().len(), rng), rng),
            code,
            double: any_bytes(fit.length(8, rng), rng),
            reasons: any_bytes(fit.length(explain::text(bytes).as_bytes().len(), rng), rng),
            heaviest: long_words(fit.length(HEAVIEST_ROOM, rng), rng),
            rows: words(rows, rng),
            row_counts: words(row_counts, rng),
            blocks: any_bytes(blocks, rng),
            size: words(size, rng),
            entry: (number_near(COUNTRIES, rng), number_near(ZONES, rng)),
            figures52: (0..fit.length(TABLE52_ROOM, rng))
                .map(|_| rng.word() as i32)
                .collect(),
            defaults: words(fit.length(DEFAULTS.len(), rng), rng),
            nation: any_bytes(fit.length(Nation::of(file).text().len(), rng), rng),
        }
    }
}

/// Mostly a number below `on`.
fn number_near(on: usize, rng: &mut Rng) -> u32 {
    match rng.below(8) {
        0 => rng.word(),
        1 => (on + rng.below(2)) as u32,
        _ => rng.below(on) as u32,
    }
}

pub fn words(length: usize, rng: &mut Rng) -> Vec<u32> {
    (0..length).map(|_| rng.word()).collect()
}

fn long_words(length: usize, rng: &mut Rng) -> Vec<u64> {
    (0..length).map(|_| rng.draw()).collect()
}

pub fn any_bytes(length: usize, rng: &mut Rng) -> Vec<u8> {
    let mut bytes = vec![0; length];
    rng.fill(&mut bytes);
    bytes
}

/// For the rows and their numbers, one of the two short. A return that is
/// refused fits no rooms and gets a full one's, or none.
fn row_lengths(bytes: &[u8], fit: Fit, rng: &mut Rng) -> (usize, usize) {
    let (rows, counts) = match judge(bytes) {
        Verdict::Accepted(counts) => (ends(&counts.rows)[KINDS.len() - 1], COUNTS_ROOM),
        Verdict::Refused(_) => rng.pick(&[(ROWS_ROOM, COUNTS_ROOM), (0, 0)]),
    };
    match fit {
        Fit::Short if rng.one_in(4) => (rows, fit.length(counts, rng)),
        Fit::Short => (fit.length(rows, rng), counts),
        Fit::Exact | Fit::Longer => (fit.length(rows, rng), fit.length(counts, rng)),
    }
}

/// For the blocks and their size, one of the two short. Refused lists have
/// no blocks and get room for any number of them.
fn block_lengths(lists: &RowLists, fit: Fit, rng: &mut Rng) -> (usize, usize) {
    let mut size = [0];
    let needed = match lists.write(&mut [0; RETURN_ROOM], &mut size) {
        0 => size[0] as usize,
        _ => 512 * rng.below(MOST_BLOCKS + 1),
    };
    match fit {
        Fit::Exact => (needed, 1),
        Fit::Short if rng.one_in(2) => (needed, 0),
        Fit::Short => (fit.length(needed, rng), 1),
        Fit::Longer => (fit.length(needed, rng), 2 + rng.below(3)),
    }
}
