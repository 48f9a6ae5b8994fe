//! The sentences of the requests on abandoned land, on savannas, on soils, on scattered
//! trees and on crop residues (02, §1, §5, §11, §12 and §14) about refusals, each of which
//! the inputs of a comparison have to meet.
//!
//! They are read off the bytes and the rows once more, not asked of the judge.

mod returns;
mod writing;

pub use returns::{edition, Seen, OF_RETURNS};
pub use writing::{SeenRows, OF_WRITING};

use crate::coverage::Sort;
use crate::kinds::later_kinds;

/// The editions that have the kinds above 4.
const LATER: [u32; 2] = [2, 3];

/// A sentence about each of them, whose number stands for the `@`.
type SortOfEdition<S> = (&'static str, fn(&S, u32) -> bool);
/// A sentence about each kind above 4, whose number stands for the `#`.
type SortOfKind<S> = (&'static str, fn(&S, u8) -> bool);
/// One about each such kind in each of these editions.
type SortOfBoth<S> = (&'static str, fn(&S, u32, u8) -> bool);

/// Sentences about what is seen of an input with its answer.
pub struct Sentences<S: 'static> {
    general: &'static [Sort<S>],
    of_editions: &'static [SortOfEdition<S>],
    of_kinds: &'static [SortOfKind<S>],
    of_both: &'static [SortOfBoth<S>],
}

impl<S> Sentences<S> {
    pub fn names(&self) -> Vec<String> {
        let mut names: Vec<String> = Vec::new();
        self.each(|name, _| names.push(name));
        names
    }

    /// Which of them are met, by their places among the names.
    pub fn met(&self, seen: &S) -> Vec<usize> {
        let mut met = Vec::new();
        let mut nth = 0;
        self.each_holds(|holds| {
            if holds(seen) {
                met.push(nth);
            }
            nth += 1;
        });
        met
    }

    /// Goes over all of them, by name.
    fn each(&self, mut take: impl FnMut(String, &dyn Fn(&S) -> bool)) {
        let edition_named = |name: &str, edition: u32| name.replace('@', &edition.to_string());
        let kind_named = |name: &str, kind: u8| name.replace('#', &kind.to_string());
        for (name, holds) in self.general {
            take(name.to_string(), holds);
        }
        for (name, holds) in self.of_editions {
            for edition in LATER {
                take(edition_named(name, edition), &|seen| holds(seen, edition));
            }
        }
        for kind in later_kinds() {
            for (name, holds) in self.of_kinds {
                take(kind_named(name, kind), &|seen| holds(seen, kind));
            }
            for (name, holds) in self.of_both {
                for edition in LATER {
                    let name = kind_named(&edition_named(name, edition), kind);
                    take(name, &|seen| holds(seen, edition, kind));
                }
            }
        }
    }

    /// The same without the names, which take their time.
    fn each_holds(&self, mut take: impl FnMut(&dyn Fn(&S) -> bool)) {
        self.general.iter().for_each(|(_, holds)| take(holds));
        for (_, holds) in self.of_editions {
            LATER
                .iter()
                .for_each(|&edition| take(&|seen| holds(seen, edition)));
        }
        for kind in later_kinds() {
            for (_, holds) in self.of_kinds {
                take(&|seen| holds(seen, kind));
            }
            for (_, holds) in self.of_both {
                let each = |&edition: &u32| take(&|seen| holds(seen, edition, kind));
                LATER.iter().for_each(each);
            }
        }
    }

    #[cfg(test)]
    fn met_names(&self, seen: &S) -> Vec<String> {
        let mut names = self.names();
        let met = self.met(seen).into_iter();
        met.map(|nth| std::mem::take(&mut names[nth])).collect()
    }
}

#[cfg(test)]
mod tests {
    use super::*;
    use crate::input::Input;
    use crate::judge::judge;
    use crate::kinds::RETURN_ROOM;
    use crate::rng::Rng;
    use crate::{mix, rowlists};

    /// Nothing that the later editions brought is left to the sweeps, or to chance.
    #[test]
    fn every_sentence_is_met_often() {
        let often = |names: Vec<String>, found: &dyn Fn(u64) -> Vec<usize>| {
            let mut met = vec![0; names.len()];
            let inputs = 20_000 * later_kinds().count() as u64;
            let found = (0..inputs).flat_map(found);
            found.for_each(|nth| met[nth] += 1);
            assert!(met.iter().all(|&times| times > 20), "{names:?} {met:?}");
        };
        often(OF_RETURNS.names(), &|index| {
            let case = mix::case(&mut Rng::for_input(101, index));
            case.met(judge(&case.bytes).answer())
        });
        often(OF_WRITING.names(), &|index| {
            let lists = rowlists::case(&mut Rng::for_input(102, index));
            lists.met(lists.write(&mut [0; RETURN_ROOM], &mut [0]))
        });
    }
}
