//! How many exact halves the accepted inputs of a comparison had, for each
//! rounded figure and each way to the even neighbour.

use crate::coverage::{Counters, Coverage, Due};
use crate::judge::check;
use crate::rounding::{Half, Tonnes};
use crate::sheets::{exact_tonnes, ROUNDED, SIGNED};

/// For each figure the halves above zero that go down and up, and of the signed ones those below zero.
pub struct Halves(Counters);

/// The figures with the sides of zero that they have: a signed one has two.
fn sides() -> impl Iterator<Item = (usize, Option<bool>)> {
    let of_figure = |(figure, name): (usize, &&str)| match SIGNED.contains(name) {
        true => vec![(figure, Some(false)), (figure, Some(true))],
        false => vec![(figure, None)],
    };
    ROUNDED.iter().enumerate().flat_map(of_figure)
}

impl Halves {
    /// So many of each are due.
    pub fn new(due: Due, coverage: &mut Coverage) -> Self {
        let names = sides().flat_map(|(figure, below)| {
            let side = match below {
                None => "",
                Some(false) => " above zero",
                Some(true) => " below zero",
            };
            ["down", "up"].map(|way| format!("exact halves of {}{side}, {way}", ROUNDED[figure]))
        });
        Halves(coverage.add(due, names))
    }

    /// Counts the halves of a return, if it is accepted.
    pub fn note(&self, bytes: &[u8], coverage: &mut Coverage) {
        let Ok(checked) = check(bytes) else {
            return;
        };
        for (figure, exact) in exact_tonnes(checked).iter().enumerate() {
            if let Some(way) = exact.half() {
                let place = 2 * place(figure, exact) + usize::from(way == Half::Up);
                coverage.count(self.0, place);
            }
        }
    }
}

/// The place of a figure's side among all.
fn place(figure: usize, exact: &Tonnes) -> usize {
    let below = exact.above < 0;
    let own = |side: (usize, Option<bool>)| side.0 == figure && side.1.is_none_or(|b| b == below);
    sides().position(own).expect("every figure has its side")
}

#[cfg(test)]
mod tests {
    use super::*;
    use crate::figures;
    use crate::make::Rows;
    use crate::rng::Rng;

    /// By hand: one return with one half, of Q and so of the report.
    #[test]
    fn a_half_is_counted_once() {
        let mut rows = Rows {
            stock: vec![[1, 0, 1, 15_000, 1]],
            parameters: vec![[0; 6]],
            ..Rows::default()
        };
        let mut coverage = Coverage::default();
        let halves = Halves::new(Due::Once, &mut coverage);
        // 5.5 goes up to 6, and the report's -5.5 down to -6.
        halves.note(&rows.to_bytes(), &mut coverage);
        rows.stock[0][3] = 15_001;
        halves.note(&rows.to_bytes(), &mut coverage);
        halves.note(&rows.to_bytes()[1..], &mut coverage);
        let due = [
            ("exact halves of Q above zero, up", 1),
            ("exact halves of report below zero, down", 1),
        ];
        assert_eq!(coverage.came(), due);
    }

    /// Every figure has its halves, each way, and a signed one on each side.
    #[test]
    fn halves_come_of_every_figure() {
        let mut coverage = Coverage::default();
        let halves = Halves::new(Due::Once, &mut coverage);
        for index in 0..6_000 {
            let case = figures::case(&mut Rng::for_input(56, index));
            halves.note(&case.bytes, &mut coverage);
        }
        assert_eq!(coverage.came().len(), 2 * (ROUNDED.len() + SIGNED.len()));
        assert!(coverage.each_came(50), "{:?}", coverage.came());
    }
}
