//! What all comparisons have in common: the run over the inputs, the table of
//! answers, the report of differences and the verdict at the end.

use crate::answers::Answers;
use crate::balances::Balances;
use crate::coverage::{Asked, Coverage, Due};
use crate::input::Input;
use crate::residues::Residues;
use crate::retired::Retired;
use crate::rng::Rng;
use crate::sorts::RowSorts;
use crate::uneven::Uneven;
use std::process::ExitCode;
use std::time::Instant;

const SEED: u64 = 20_260_101;
/// Differences that are described; the others are only counted.
const SHOWN: usize = 5;
/// Of fewer inputs than this, named for a quick try, no shares are asked.
const ENOUGH_FOR_SHARES: usize = 10_000;
/// Of fewer accepted inputs, where a number of inputs was named, no counts are
/// asked.
const ENOUGH_FOR_COUNTS: usize = 50_000;

/// One comparison.
pub struct Plan<'a> {
    pub name: &'a str,
    /// The inputs of a run whose number wasn't named, and the fewest of them.
    pub inputs: usize,
    pub least: usize,
    /// The answers (0 for acceptance) due on at least 1 % of the inputs each, and
    /// in each edition on a fifth of that.
    pub often: &'a [u32],
    /// Numbers that are due so many times at least, however many inputs there are.
    pub counted: &'a [(u32, usize)],
    /// The fewest accepted inputs of each sort by their rows.
    pub sorts: usize,
    /// The fewest inputs by the wood that is cleared and used, of each balance; none is
    /// asked where it is 0.
    pub balances: usize,
    /// The fewest inputs refused by 13, of each sort by the areas of their soils; none is
    /// asked where it is 0.
    pub uneven: usize,
    /// The fewest inputs by their scattered trees, of each sort; none is asked where it is 0.
    pub retired: usize,
    /// The fewest accepted inputs with crops; a fifth of that with 32, and of the most blocks.
    pub crops: usize,
    /// The fewest inputs with a crop above each of its limits; none is asked where it is 0.
    pub crossed: usize,
}

/// So many times, or told where it is none.
fn times_or_told(least: usize) -> Due {
    match least {
        0 => Due::Told,
        least => Due::Times(least),
    }
}

/// What came of one input.
pub struct Outcome {
    /// The answer due: 0 for acceptance, or 1,000 times the refusal number plus
    /// the place.
    pub answer: u32,
    pub difference: Option<String>,
}

/// The three optional arguments of every comparison.
#[derive(Clone, Copy)]
pub struct Arguments {
    pub seed: u64,
    pub inputs: Option<usize>,
    /// After this time no further input is taken.
    pub seconds: Option<u64>,
}

impl Arguments {
    /// `PROGRAM [SEED [INPUTS [SECONDS]]]`, or nothing after a word on the usage.
    pub fn from_command(program: &str) -> Option<Self> {
        let read = Self::parse(std::env::args().skip(1));
        if read.is_none() {
            eprintln!("{program} [SEED [INPUTS [SECONDS]]]: whole numbers, inputs at least 1");
        }
        read
    }

    pub fn parse(mut words: impl Iterator<Item = String>) -> Option<Self> {
        let seed = match words.next() {
            None => SEED,
            Some(word) => word.parse().ok()?,
        };
        let inputs = match words.next() {
            None => None,
            Some(word) => Some(word.parse().ok().filter(|&inputs| inputs > 0)?),
        };
        let seconds = match words.next() {
            None => None,
            Some(word) => Some(word.parse().ok()?),
        };
        let read = Arguments {
            seed,
            inputs,
            seconds,
        };
        words.next().is_none().then_some(read)
    }

    /// What is asked of so many inputs, of which so many were accepted.
    fn asked(self, inputs: usize, accepted: usize) -> Asked {
        let usual = self.inputs.is_none();
        Asked {
            inputs,
            shares: usual || inputs >= ENOUGH_FOR_SHARES,
            counts: usual || accepted >= ENOUGH_FOR_COUNTS,
        }
    }

    /// Whether the time that was named is over.
    pub fn over(self, start: Instant) -> bool {
        self.seconds
            .is_some_and(|seconds| start.elapsed().as_secs() >= seconds)
    }
}

/// How a run went.
#[must_use]
pub struct Ran {
    good: bool,
    asked: Asked,
}

impl Ran {
    /// Prints what this counted, and holds it against what is asked of the run.
    pub fn with(mut self, coverage: &Coverage) -> Self {
        coverage.print(self.asked.inputs);
        self.good &= coverage.reached(self.asked);
        self
    }

    /// Whether all is well.
    pub fn good(self) -> bool {
        self.good
    }
}

/// Goes over the inputs, and counts the answers, the sentences, the sorts of rows, the balances of wood, the areas of soils, the scattered trees and
/// the crops.
pub fn run<I: Input>(
    plan: &Plan,
    arguments: Arguments,
    make: impl Fn(usize, &mut Rng) -> I,
    mut try_one: impl FnMut(&I, &mut Rng) -> Outcome,
) -> Ran {
    let seed = arguments.seed;
    let mut coverage = Coverage::default();
    let shares = [Due::Thousandths(10), Due::Thousandths(2)];
    let answers = Answers::new("", plan.often, shares, &mut coverage);
    let sentences = coverage.add(Due::Once, I::sentences());
    let sorts = RowSorts::new(Due::Times(plan.sorts), &mut coverage);
    let counted = plan.counted.iter().map(|&(number, least)| {
        let name = format!("refused {number}, {least} times and more");
        (number, coverage.add(Due::Times(least), [name]))
    });
    let counted: Vec<_> = counted.collect();
    let balances = Balances::new(times_or_told(plan.balances), &mut coverage);
    let uneven = Uneven::new(times_or_told(plan.uneven), &mut coverage);
    let retired = Retired::new(times_or_told(plan.retired), &mut coverage);
    let crops = [plan.crops, plan.crops / 5, plan.crossed].map(times_or_told);
    let residues = Residues::new(crops, &mut coverage);
    let [mut made, mut accepted, mut differences] = [0; 3];
    let start = Instant::now();
    for index in 0..arguments.inputs.unwrap_or(plan.inputs) {
        if arguments.over(start) {
            break;
        }
        let mut rng = Rng::for_input(seed, index as u64);
        let input = make(index, &mut rng);
        let outcome = try_one(&input, &mut rng);
        made += 1;
        answers.note(input.edition(), outcome.answer / 1000, &mut coverage);
        for nth in input.met(outcome.answer) {
            coverage.count(sentences, nth);
        }
        let number = outcome.answer / 1000;
        for (_, counter) in counted.iter().filter(|(of, _)| *of == number) {
            coverage.count(*counter, 0);
        }
        balances.note(number, || input.lists(), &mut coverage);
        uneven.note(number, || input.lists(), &mut coverage);
        retired.note(
            input.edition(),
            outcome.answer,
            || input.lists(),
            &mut coverage,
        );
        residues.note(outcome.answer, || input.lists(), &mut coverage);
        if outcome.answer == 0 {
            accepted += 1;
            sorts.note(&input.lists(), &mut coverage);
        }
        if let Some(difference) = outcome.difference {
            differences += 1;
            if differences <= SHOWN {
                show(plan.name, (seed, index), &input, &difference);
            }
        }
    }

    let mut good = differences == 0 && made > 0;
    if arguments.inputs.is_none() && made < plan.least {
        eprintln!("too few inputs: {made}, at least {} are due", plan.least);
        good = false;
    }
    let asked = arguments.asked(made, accepted);
    let ran = Ran { good, asked }.with(&coverage);
    println!(
        "compare {}: {made} inputs, {differences} differences",
        plan.name
    );
    ran
}

fn show(name: &str, (seed, index): (u64, usize), input: &impl Input, difference: &str) {
    println!(
        "difference at input {index} of seed {seed}: {}",
        input.how()
    );
    println!("  {difference}");
    let path = std::env::temp_dir().join(format!("niloferq-{name}-{seed}-{index}.bin"));
    match std::fs::write(&path, input.dump()) {
        Ok(()) => println!("  input in {}", path.display()),
        Err(error) => println!("  input not written: {error}"),
    }
}

pub fn exit(good: bool) -> ExitCode {
    if good {
        ExitCode::SUCCESS
    } else {
        ExitCode::FAILURE
    }
}

/// Where two memories differ first, or nothing where they are the same.
pub fn memory_difference<T: PartialEq + std::fmt::Debug>(
    name: &str,
    found: &[T],
    due: &[T],
) -> Option<String> {
    // Whole first, which is quick: they are nearly always the same.
    if found == due {
        return None;
    }
    let at = (0..found.len().max(due.len())).find(|&at| found.get(at) != due.get(at))?;
    let around = |memory: &[T]| {
        let end = memory.len().min(at + 6);
        format!("{:?}", &memory[at.min(end)..end])
    };
    let (found, due) = (around(found), around(due));
    Some(format!(
        "{name} differs from element {at} on: {found}, due {due}"
    ))
}

/// The first of several differences.
pub fn first_of(differences: impl IntoIterator<Item = Option<String>>) -> Option<String> {
    differences.into_iter().flatten().next()
}

#[cfg(test)]
mod tests {
    use super::*;

    #[test]
    fn arguments_are_whole_numbers() {
        let parse = |text: &str| {
            let words = text.split_whitespace().map(String::from);
            Arguments::parse(words).map(|read| (read.seed, read.inputs, read.seconds))
        };
        assert_eq!(parse(""), Some((SEED, None, None)));
        assert_eq!(parse("5"), Some((5, None, None)));
        assert_eq!(parse("5 9"), Some((5, Some(9), None)));
        assert_eq!(parse("5 9 60"), Some((5, Some(9), Some(60))));
        for wrong in ["x", "5 0", "5 x", "5 9 x", "5 9 1 1"] {
            assert_eq!(parse(wrong), None, "{wrong}");
        }
    }

    #[test]
    fn memories_are_compared_whole() {
        assert_eq!(memory_difference("room", &[1, 2], &[1, 2]), None);
        assert!(memory_difference("room", &[1, 2], &[1, 3]).is_some());
        assert!(memory_difference("room", &[1, 2], &[1]).is_some());
        assert!(memory_difference::<u8>("room", &[], &[1]).is_some());
    }
}
