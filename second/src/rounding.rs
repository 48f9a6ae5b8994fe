//! Rounding to whole tonnes: "every rounded tonne goes to the nearest, a half to
//! the even neighbour, for both signs" (02, §2).

use std::cmp::Ordering;

/// A figure in tonnes before it is rounded: `above` / `below`.
#[derive(Clone, Copy, Debug, PartialEq, Eq)]
pub struct Tonnes {
    pub above: i128,
    pub below: u128,
}

/// Where the even neighbour of a half lies.
#[derive(Clone, Copy, Debug, PartialEq, Eq)]
pub enum Half {
    Down,
    Up,
}

impl Tonnes {
    pub fn of(above: impl Into<i128>, below: u128) -> Self {
        let above = above.into();
        Tonnes { above, below }
    }

    /// Even and odd are the same on both sides of zero, so the size is rounded
    /// and gets its sign back.
    pub fn rounded(self) -> i64 {
        let size = nearest(self.above.unsigned_abs(), self.below) as i64;
        if self.above < 0 {
            -size
        } else {
            size
        }
    }

    /// The way that a half goes, if this is one, told by the whole number just
    /// below it and not by [`Tonnes::rounded`].
    pub fn half(self) -> Option<Half> {
        let below = self.below as i128;
        let (lower, rest) = (self.above.div_euclid(below), self.above.rem_euclid(below));
        let way = if lower % 2 == 0 { Half::Down } else { Half::Up };
        (2 * rest == below).then_some(way)
    }
}

/// The whole number nearest to a ratio, at a half the even one. Every answer is
/// at most 7.04 x 10^14, a nation's.
fn nearest(above: u128, below: u128) -> u128 {
    let (whole, rest) = divided(above, below);
    whole
        + match (2 * rest).cmp(&below) {
            Ordering::Less => 0,
            Ordering::Equal => whole % 2,
            Ordering::Greater => 1,
        }
}

/// The whole part, and what is left of `above`.
fn divided(above: u128, below: u128) -> (u128, u128) {
    match (u64::try_from(above), u64::try_from(below)) {
        // One short division where it is enough.
        (Ok(above), Ok(below)) => ((above / below).into(), (above % below).into()),
        _ => {
            let whole = above / below;
            (whole, above - whole * below)
        }
    }
}

#[cfg(test)]
mod tests {
    use super::*;

    /// Tenths on a half and beside it, by hand, on both sides of zero.
    #[test]
    fn halves_go_to_the_even_neighbour() {
        for (tenths, due) in [
            (0, 0),
            (4, 0),
            (5, 0),
            (6, 1),
            (14, 1),
            (15, 2),
            (16, 2),
            (24, 2),
            (25, 2),
            (26, 3),
            (35, 4),
            (45, 4),
            (55, 6),
            (165, 16),
            (175, 18),
        ] {
            assert_eq!(Tonnes::of(tenths, 10).rounded(), due, "{tenths}");
            assert_eq!(Tonnes::of(-tenths, 10).rounded(), -due, "-{tenths}");
        }
    }

    /// The same beyond 64 bits, above and below: 10^12 and a half, and its odd neighbour.
    #[test]
    fn wide_halves_go_to_the_even_neighbour() {
        for below in [7 * 10i128.pow(15), 7 * 10i128.pow(19)] {
            let with = |whole: i128, rest: i128| {
                let above = whole * below + rest;
                assert!(above > i128::from(u64::MAX));
                let rounded = |above: i128| Tonnes::of(above, below as u128).rounded();
                assert_eq!(rounded(above), -rounded(-above));
                i128::from(rounded(above))
            };
            let (tera, half) = (1_000_000_000_000, below / 2);
            for (whole, due) in [(tera, tera), (tera + 1, tera + 2)] {
                assert_eq!(with(whole, half - 1), whole);
                assert_eq!(with(whole, half), due);
                assert_eq!(with(whole, half + 1), whole + 1);
            }
        }
    }

    /// One word above and two below.
    #[test]
    fn less_than_one_of_a_wide_number() {
        let below = 7 * 10u128.pow(19);
        let rounded = |above: u64| Tonnes::of(above, below).rounded();
        assert_eq!([0, 1, u64::MAX].map(rounded), [0; 3]);
        assert_eq!(
            Tonnes::of(35 * 10i128.pow(18), below).half(),
            Some(Half::Down)
        );
        assert_eq!(Tonnes::of(35 * 10i128.pow(18) + 1, below).rounded(), 1);
    }

    #[test]
    fn halves_are_told_with_their_way() {
        let way = |tenths: i32| Tonnes::of(tenths, 10).half();
        for none in [-16, -10, -4, 0, 4, 6, 14, 16, 20] {
            assert_eq!(way(none), None, "{none}");
        }
        for down in [5, 25, -15, -35] {
            assert_eq!(way(down), Some(Half::Down), "{down}");
        }
        for up in [15, 35, -5, -25] {
            assert_eq!(way(up), Some(Half::Up), "{up}");
        }
    }
}
