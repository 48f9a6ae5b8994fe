//! What a comparison asks of its inputs, which are returns or rows for the writer.

use crate::case::Case;
use crate::lists::{rows_of, Lists, RowLists};
use crate::sentences::{edition, Seen, SeenRows, OF_RETURNS, OF_WRITING};

/// An input as the report needs it.
pub trait Input {
    fn how(&self) -> &str;
    /// What is written beside the report, to look at.
    fn dump(&self) -> Vec<u8>;
    /// The edition that it says.
    fn edition(&self) -> u32;
    /// The requests' own sentences, each of which has to be met.
    fn sentences() -> Vec<String>;
    /// Which of them it meets, when this answer is due.
    fn met(&self, answer: u32) -> Vec<usize>;
    /// Its rows, when it is accepted, or refused by a number that is tried behind its form.
    fn lists(&self) -> Lists;
}

impl Input for Case {
    fn how(&self) -> &str {
        &self.how
    }

    fn dump(&self) -> Vec<u8> {
        self.bytes.clone()
    }

    fn edition(&self) -> u32 {
        edition(&self.bytes)
    }

    fn sentences() -> Vec<String> {
        OF_RETURNS.names()
    }

    fn met(&self, answer: u32) -> Vec<usize> {
        OF_RETURNS.met(&Seen::of(&self.bytes, answer))
    }

    fn lists(&self) -> Lists {
        rows_of(&self.bytes)
    }
}

impl Input for RowLists {
    fn how(&self) -> &str {
        &self.how
    }

    /// The edition, the lengths, then the area, in decimal.
    fn dump(&self) -> Vec<u8> {
        format!("{}\n{:?}\n{:?}\n", self.edition, self.lengths, self.rows).into_bytes()
    }

    fn edition(&self) -> u32 {
        self.edition
    }

    fn sentences() -> Vec<String> {
        OF_WRITING.names()
    }

    fn met(&self, answer: u32) -> Vec<usize> {
        OF_WRITING.met(&SeenRows::of(self, answer))
    }

    fn lists(&self) -> Lists {
        RowLists::lists(self)
    }
}
