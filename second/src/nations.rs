//! Files of returns for the national line (02, §10): whole ones, and one that stops the
//! run in each way.

use crate::judge::judge;
use crate::make::{Rows, ALL_EDITIONS, BLOCK};
use crate::nation::{MOST_BLOCKS, MOST_RETURNS};
use crate::rng::Rng;
use crate::{clearings, figures, mix, plots, trees};

/// How a file ends.
#[derive(Clone, Copy, Debug, PartialEq, Eq)]
pub enum End {
    /// With a return.
    Whole,
    /// With a first header that says 0 blocks.
    NoBlocks,
    /// With one that says more than there may be.
    ManyBlocks,
    /// With fewer than six bytes of a return.
    ShortHeader,
    /// With six or more.
    ShortReturn,
    /// Behind the 500th return.
    Many,
    /// A return among the others says another number of blocks than it has, so that
    /// what is cut from there on is left to chance.
    Lost,
}

pub struct File {
    pub how: String,
    pub end: End,
    /// Each as long as its own first header says, but for one of a file that is lost.
    pub returns: Vec<Vec<u8>>,
    /// What stands behind them.
    pub rest: Vec<u8>,
}

impl File {
    pub fn bytes(&self) -> Vec<u8> {
        [&self.returns.concat()[..], &self.rest].concat()
    }
}

/// The ends of files of a few returns; half of them are whole.
const FEW: [End; 10] = [
    End::Whole,
    End::NoBlocks,
    End::Whole,
    End::ManyBlocks,
    End::Whole,
    End::ShortHeader,
    End::Whole,
    End::ShortReturn,
    End::Whole,
    End::Lost,
];

/// The `index`-th file of 0 to 12 returns.
pub fn few(index: usize, rng: &mut Rng) -> File {
    let end = FEW[index % FEW.len()];
    let mut returns = returns(rng);
    if end == End::Lost {
        returns.push(any_return(rng));
        let lost = rng.below(returns.len());
        mislead(rng, &mut returns[lost]);
    }
    file(rng, end, returns)
}

/// The `index`-th file of about 500: 499, 500, and 500 with something behind them.
pub fn crowd(index: usize, rng: &mut Rng) -> File {
    let (count, end) = match index % 12 {
        0 => (MOST_RETURNS - 1, End::Whole),
        1 => (MOST_RETURNS, End::Whole),
        2 => (MOST_RETURNS - 1, End::ShortReturn),
        _ => (MOST_RETURNS, End::Many),
    };
    // Small ones, which come again and again, and a few others.
    let pool: Vec<Vec<u8>> = (0..16).map(|_| small_return(rng)).collect();
    let mut returns: Vec<Vec<u8>> = (0..count).map(|_| pool[rng.below(16)].clone()).collect();
    for _ in 0..3 {
        let at = rng.below(count);
        returns[at] = any_return(rng);
    }
    file(rng, end, returns)
}

fn file(rng: &mut Rng, end: End, returns: Vec<Vec<u8>>) -> File {
    let rest = rest(rng, end);
    let how = format!(
        "{} returns, {end:?}, {} bytes behind",
        returns.len(),
        rest.len()
    );
    File {
        how,
        end,
        returns,
        rest,
    }
}

/// 0 to 12 returns, some of which come again.
pub fn returns(rng: &mut Rng) -> Vec<Vec<u8>> {
    if rng.one_in(8) {
        return by_figures(rng);
    }
    let mut returns: Vec<Vec<u8>> = Vec::new();
    for _ in 0..rng.below(13) {
        let one = if !returns.is_empty() && rng.one_in(6) {
            returns[rng.below(returns.len())].clone()
        } else {
            any_return(rng)
        };
        returns.push(one);
    }
    returns
}

/// One return made for the sake of its figures, an odd number of times, and others that
/// add nothing: a half of one of its figures is a half of the nation's too.
fn by_figures(rng: &mut Rng) -> Vec<Vec<u8>> {
    let one = figures::case(rng).bytes;
    let mut returns = vec![one; rng.pick(&[1, 1, 3, 5])];
    while returns.len() < 12 && rng.one_in(2) {
        let other = any_return(rng);
        if judge(&other).answer() != 0 {
            returns.insert(rng.below(returns.len() + 1), other);
        }
    }
    returns
}

/// Puts them in any order.
pub fn shuffle(rng: &mut Rng, returns: &mut [Vec<u8>]) {
    for last in (1..returns.len()).rev() {
        returns.swap(rng.below(last + 1), last);
    }
}

/// A return, accepted or refused, that is as long as its own first header says.
fn any_return(rng: &mut Rng) -> Vec<u8> {
    loop {
        let bytes = match rng.below(10) {
            0..4 => Rows::any_good(rng).to_bytes(),
            4 => figures::case(rng).bytes,
            5 => clearings::case(rng).bytes,
            6 => plots::case(rng).bytes,
            7 => trees::case(rng).bytes,
            _ => mix::case(rng).bytes,
        };
        if blocks_said(&bytes).is_some_and(|blocks| is_whole(&bytes, blocks)) {
            return bytes;
        }
    }
}

/// The parameters alone, or with a row more, of any edition; now and then refused.
fn small_return(rng: &mut Rng) -> Vec<u8> {
    let edition = rng.pick(&ALL_EDITIONS);
    let stock = usize::from(rng.one_in(4));
    let mut rows = Rows::good_in(rng, edition, [0, stock, 0]);
    if stock > 0 && rng.one_in(2) {
        rows.plant(rng);
    }
    let mut bytes = rows.to_bytes();
    if rng.one_in(4) {
        let at = BLOCK - 1 - rng.below(4);
        bytes[at] ^= rng.nonzero_byte();
    }
    bytes
}

fn blocks_said(bytes: &[u8]) -> Option<usize> {
    let header = bytes.get(4..6)?;
    Some(u16::from_le_bytes([header[0], header[1]]).into())
}

fn is_whole(bytes: &[u8], blocks: usize) -> bool {
    (1..=MOST_BLOCKS.into()).contains(&blocks) && bytes.len() == BLOCK * blocks
}

/// Another number of blocks in the first header.
fn mislead(rng: &mut Rng, bytes: &mut [u8]) {
    let right = bytes[4];
    while bytes[4] == right {
        bytes[4] = 1 + rng.below(MOST_BLOCKS.into()) as u8;
    }
}

/// Some look like good numbers to a reader of one byte, or of the other order.
#[rustfmt::skip]
const TOO_MANY: [u16; 10] = [
    MOST_BLOCKS + 1, MOST_BLOCKS + 2, MOST_BLOCKS + 3, 255, 256, 257,
    256 + MOST_BLOCKS, 256 * MOST_BLOCKS, 256 * MOST_BLOCKS + 1, 65_535,
];

/// What is to stop the run, or nothing.
fn rest(rng: &mut Rng, end: End) -> Vec<u8> {
    match end {
        End::Whole | End::Lost => Vec::new(),
        End::NoBlocks => with_blocks(rng, 0),
        End::ManyBlocks => {
            let any = rng.from_to(u32::from(MOST_BLOCKS) + 1, 65_535) as u16;
            let likely = rng.pick(&TOO_MANY);
            let blocks = rng.pick(&[any, likely, likely]);
            with_blocks(rng, blocks)
        }
        End::ShortHeader => front(rng, 1..6),
        End::ShortReturn => front(rng, 6..usize::MAX),
        End::Many => match rng.below(5) {
            0 => front(rng, 1..6),
            1 => with_blocks(rng, 0),
            2 => with_blocks(rng, MOST_BLOCKS + 1),
            3 => vec![rng.byte()],
            _ => any_return(rng),
        },
    }
}

/// Bytes with this number of blocks in their header, and any length from there on.
fn with_blocks(rng: &mut Rng, blocks: u16) -> Vec<u8> {
    let mut bytes = Rows::any_good(rng).to_bytes();
    bytes[4..6].copy_from_slice(&blocks.to_le_bytes());
    let length = rng.pick(&[6, 7, 511, 512, bytes.len()]);
    bytes.truncate(length);
    bytes
}

/// The front of a good return, not all of it, of a length in this range.
fn front(rng: &mut Rng, lengths: std::ops::Range<usize>) -> Vec<u8> {
    let mut bytes = Rows::any_good(rng).to_bytes();
    let most = lengths.end.min(bytes.len()) - 1;
    let any = rng.from_to(lengths.start as u32, most as u32) as usize;
    let length = rng.pick(&[lengths.start, most, any, any]);
    bytes.truncate(length);
    bytes
}
