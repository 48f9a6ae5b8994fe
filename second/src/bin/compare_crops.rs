//! Compares two versions of a return that differ only in their crops (02, §14), and in the
//! headers and checks that these force: all else that the first program says is the same.
//!
//! `compare_crops [SEED [PAIRS [SECONDS]]]`. Each version is asked for its figures, its
//! doubles, its heaviest rows, its explanation and its national line, which are held against
//! the second program's; then the two versions are held against each other. Pairs are
//! counted by how their crops differ, by their editions and by the figures that they have,
//! and of each enough are due.

#[cfg(door_missing)]
compile_error!(
    "libdoor.a of the first program is missing: build it, or name its folder in NILOFERQ_LIB"
);

#[cfg(not(door_missing))]
mod run {
    use second::both::{both_doubles, both_explained, both_figures, both_heaviest, both_nation};
    use second::coverage::{Counters, Coverage, Due};
    use second::crop_pairs::{differ_elsewhere, pair, Pair, WAYS};
    use second::drive::{exit, first_of, memory_difference, run, Arguments, Outcome, Plan};
    use second::make::{Rows, ALL_EDITIONS};
    use second::rng::Rng;
    use second::sheets::{text, NUMBERS};
    use std::process::ExitCode;

    const PAIRS: usize = 60_000;
    /// The figures of crops, which are the last ones, and the numbers of all others.
    const CROPS: usize = 5;
    const OTHERS: usize = NUMBERS - 3 * CROPS;
    /// The editions of a return.
    const EDITIONS: usize = ALL_EDITIONS.len();
    /// Of each sort of pairs.
    const OFTEN: Due = Due::Times(1_000);

    struct Tally {
        coverage: Coverage,
        ways: Counters,
        /// Of the first version and the second.
        editions: Counters,
        /// For each figure of another sheet, the pairs in which it is not 0.
        others: Counters,
        /// For each figure of crops, the pairs in which the versions have another.
        crops: Counters,
    }

    /// What the first program says of a version.
    struct Found {
        figures: [u64; NUMBERS],
        doubles: [u64; 3],
        heaviest: [[u64; 3]; 3],
        explained: String,
        nation: String,
    }

    impl Tally {
        fn new() -> Self {
            let mut coverage = Coverage::default();
            let names = figure_names();
            let (others, crops) = names.split_at(OTHERS / 3);
            let editions = (1..=EDITIONS).flat_map(|a| (1..=EDITIONS).map(move |b| [a, b]));
            let first = coverage.add(OFTEN, [""; 0]);
            for [a, b] in editions {
                // One of them has crops.
                let due = if [a, b] == [1, 1] { Due::Never } else { OFTEN };
                coverage.add(due, [format!("editions {a} and {b}")]);
            }
            Tally {
                ways: coverage.add(OFTEN, WAYS.map(|way| format!("crops, {way:?}"))),
                editions: first,
                others: coverage.add(OFTEN, others.iter().map(|n| format!("{n} not 0"))),
                crops: coverage.add(OFTEN, crops.iter().map(|n| format!("another {n}"))),
                coverage,
            }
        }

        fn note(&mut self, pair: &Pair, first: &Found, second: &Found) {
            let coverage = &mut self.coverage;
            let way = WAYS.iter().position(|&way| way == pair.way);
            coverage.count(self.ways, way.expect("one of the ways"));
            let [a, b] = [&pair.first, &pair.second].map(|bytes| usize::from(bytes[6]) - 1);
            coverage.count(self.editions, EDITIONS * a + b);
            let figures = first.figures.chunks(3).zip(second.figures.chunks(3));
            for (nth, (a, b)) in figures.enumerate() {
                match nth.checked_sub(OTHERS / 3) {
                    None if a != [0; 3] => coverage.count(self.others, nth),
                    Some(nth) if a != b => coverage.count(self.crops, nth),
                    _ => {}
                }
            }
        }
    }

    /// The names of all figures, as `sheets` prints them.
    fn figure_names() -> Vec<String> {
        let text = text(&Rows::good(&mut Rng::new(1), [0; 3]).to_bytes());
        let text = String::from_utf8_lossy(text.as_bytes()).into_owned();
        let names = text.lines().filter_map(|line| line.split(' ').next());
        names.map(String::from).collect()
    }

    pub fn main() -> ExitCode {
        let Some(arguments) = Arguments::from_command("compare_crops") else {
            return ExitCode::FAILURE;
        };
        let plan = Plan {
            name: "crops",
            inputs: PAIRS,
            least: PAIRS,
            often: &[0],
            counted: &[],
            sorts: 100,
            balances: 0,
            uneven: 0,
            retired: 0,
            crops: 5_000,
            crossed: 0,
        };
        let mut tally = Tally::new();
        let make = |_: usize, rng: &mut Rng| pair(rng);
        let ran = run(&plan, arguments, make, |pair, _| Outcome {
            answer: 0,
            difference: try_one(pair, &mut tally),
        });
        exit(ran.with(&tally.coverage).good())
    }

    fn try_one(pair: &Pair, tally: &mut Tally) -> Option<String> {
        if let Some(b) = differ_elsewhere(&pair.first, &pair.second) {
            return Some(format!("the maker changed block {b}"));
        }
        let [first, second] = match [&pair.first, &pair.second].map(|bytes| ask(bytes)) {
            [Ok(first), Ok(second)] => [first, second],
            [Err(difference), _] => return Some(format!("the first version: {difference}")),
            [_, Err(difference)] => return Some(format!("the second version: {difference}")),
        };
        tally.note(pair, &first, &second);
        let others = |found: &Found| found.figures[..OTHERS].to_vec();
        let texts = |found: &Found| [found.explained.clone(), found.nation.clone()];
        let [heavy, due] = [&second, &first].map(|found| found.heaviest);
        first_of([
            memory_difference("other sheets", &others(&second), &others(&first)),
            memory_difference("doubles", &second.doubles, &first.doubles),
            memory_difference("heaviest rows", heavy.as_flattened(), due.as_flattened()),
            memory_difference("texts", &texts(&second), &texts(&first)),
        ])
        .map(|difference| format!("with other crops: {difference}"))
    }

    /// What the first program says of these bytes, or where the second says another.
    fn ask(bytes: &[u8]) -> Result<Found, String> {
        Ok(Found {
            figures: both_figures(bytes)?,
            doubles: both_doubles(bytes)?.map(f64::to_bits),
            heaviest: both_heaviest(bytes)?,
            explained: both_explained(bytes)?,
            nation: both_nation(bytes)?,
        })
    }
}

#[cfg(not(door_missing))]
fn main() -> std::process::ExitCode {
    run::main()
}

#[cfg(door_missing)]
fn main() {}
