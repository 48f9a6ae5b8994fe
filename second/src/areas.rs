//! The areas of each soil type, now and twenty years ago (02, §11): "13, place of the
//! first row of the lowest soil type whose two area sums differ".
//!
//! Within the limits a sum is at most 32 x 100,000.

/// The most rows, and so the most types.
const MOST_TYPES: usize = 32;

/// The rows of one soil type, added up.
#[derive(Clone, Copy, Debug, Default, PartialEq, Eq)]
pub struct SoilType {
    pub number: u32,
    pub now: u64,
    pub then: u64,
    /// The place of its first row.
    pub place: usize,
}

/// The types of the rows that were added, in the order of their first rows.
#[derive(Clone, Copy, Default)]
pub struct Areas {
    types: [SoilType; MOST_TYPES],
    count: usize,
}

impl Areas {
    /// The row at this place, by soil type, area now and area then.
    pub fn add(&mut self, place: usize, [number, now, then]: [u32; 3]) {
        let known = self.types[..self.count].iter();
        let nth = match known.clone().position(|of| of.number == number) {
            Some(nth) => nth,
            None => {
                let new = SoilType {
                    number,
                    place,
                    ..SoilType::default()
                };
                self.types[self.count] = new;
                self.count += 1;
                self.count - 1
            }
        };
        self.types[nth].now += u64::from(now);
        self.types[nth].then += u64::from(then);
    }

    /// The lowest type whose two sums differ, if there is one.
    pub fn uneven(&self) -> Option<SoilType> {
        let uneven = self.types[..self.count].iter();
        let uneven = uneven.filter(|of| of.now != of.then);
        uneven.min_by_key(|of| of.number).copied()
    }
}

#[cfg(test)]
#[path = "areas_tests.rs"]
mod tests;
