//! Two versions of a return, as a comparison that holds them against each other needs them.

use crate::input::Input;
use crate::lists::{rows_of, Lists};

/// Both are accepted.
pub trait Versions {
    fn how(&self) -> &str;
    fn first(&self) -> &[u8];
    fn second(&self) -> &[u8];
}

/// The edition and the rows are the second version's.
impl<V: Versions> Input for V {
    fn how(&self) -> &str {
        Versions::how(self)
    }

    fn dump(&self) -> Vec<u8> {
        [self.first(), self.second()].concat()
    }

    fn edition(&self) -> u32 {
        self.second()[6].into()
    }

    fn sentences() -> Vec<String> {
        Vec::new()
    }

    fn met(&self, _: u32) -> Vec<usize> {
        Vec::new()
    }

    fn lists(&self) -> Lists {
        rows_of(self.second())
    }
}
