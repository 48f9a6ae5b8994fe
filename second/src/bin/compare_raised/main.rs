//! Compares two versions of a return by the first program's doubles and exact totals
//! (02, §9): with more cleared in the second none of the three is lower.
//!
//! `compare_raised [SEED [INPUTS]]`. Each version is asked for all three doubles and for
//! its figures, and held against the second program's; then the two versions are held
//! against each other. Five pairs in six meet the premise, and must not fall. The others
//! break it in one field of one row: of these some have to fall, by the double and by the
//! exact total, or nothing was tried.

#[cfg(door_missing)]
compile_error!(
    "libdoor.a of the first program is missing: build it, or name its folder in NILOFERQ_LIB"
);

#[cfg(not(door_missing))]
mod tally;

#[cfg(not(door_missing))]
mod run {
    use crate::tally::{Tally, SUBTOTALS};
    use second::both::{both_doubles, both_figures};
    use second::drive::{exit, run, Arguments, Outcome, Plan};
    use second::lists::rows_of;
    use second::raised::{broken_pair, not_more_cleared, pair, Pair};
    use second::rng::Rng;
    use second::sheets::NUMBERS;
    use std::process::ExitCode;

    /// The premise holds of so many pairs, and one in so many is broken.
    const HELD: usize = 200_000;
    const EVERY: usize = 6;
    const INPUTS: usize = HELD * EVERY / (EVERY - 1);
    /// On-site, off-site and decay among the figures, three numbers each.
    const EXACT_AT: [usize; 3] = [24, 27, 33];

    /// What the first program says of a version.
    pub struct Found {
        pub doubles: [f64; 3],
        figures: [u64; NUMBERS],
    }

    impl Found {
        pub fn exact(&self, code: usize) -> u128 {
            let at = EXACT_AT[code];
            u128::from(self.figures[at + 1]) << 64 | u128::from(self.figures[at + 2])
        }
    }

    pub fn main() -> ExitCode {
        let Some(arguments) = Arguments::from_command("compare_raised") else {
            return ExitCode::FAILURE;
        };
        let plan = Plan {
            name: "raised",
            inputs: INPUTS,
            least: INPUTS,
            often: &[0],
            counted: &[],
            sorts: 100,
            balances: 0,
            uneven: 0,
            retired: 0,
            crops: 0,
            crossed: 0,
        };
        let make = |index: usize, rng: &mut Rng| {
            let broken = index % EVERY == EVERY - 1;
            if broken {
                broken_pair(rng)
            } else {
                pair(rng)
            }
        };
        let mut tally = Tally::new();
        let ran = run(&plan, arguments, make, |pair, _| Outcome {
            answer: 0,
            difference: try_one(pair, &mut tally),
        });
        exit(ran.with(&tally.coverage).good())
    }

    fn try_one(pair: &Pair, tally: &mut Tally) -> Option<String> {
        let lists = [&pair.first, &pair.second].map(|bytes| rows_of(bytes));
        let broken = not_more_cleared(&lists[0], &lists[1]).map(|(_, field)| field);
        if broken != pair.broken {
            return Some(format!(
                "the maker broke {:?}, and not {broken:?}",
                pair.broken
            ));
        }
        let [first, second] = match [&pair.first, &pair.second].map(|bytes| ask(bytes)) {
            [Ok(first), Ok(second)] => [first, second],
            [Err(difference), _] => return Some(format!("the first version: {difference}")),
            [_, Err(difference)] => return Some(format!("the second version: {difference}")),
        };
        let fallen = [0, 1, 2].map(|code| {
            [
                second.doubles[code] < first.doubles[code],
                second.exact(code) < first.exact(code),
            ]
        });
        match pair.broken {
            None => tally.note_held(pair, &lists, [&first, &second]),
            Some(field) => tally.note_broken(field, fallen),
        }
        let fell = fallen.iter().position(|fell| fell.contains(&true));
        let code = fell.filter(|_| pair.broken.is_none())?;
        Some(format!(
            "{} fell: doubles {:?} and {:?}, exact {} and {}",
            SUBTOTALS[code],
            first.doubles[code],
            second.doubles[code],
            first.exact(code),
            second.exact(code)
        ))
    }

    /// What the first program says of these bytes, or where the second says another.
    fn ask(bytes: &[u8]) -> Result<Found, String> {
        Ok(Found {
            figures: both_figures(bytes)?,
            doubles: both_doubles(bytes)?,
        })
    }
}

#[cfg(not(door_missing))]
fn main() -> std::process::ExitCode {
    run::main()
}

#[cfg(door_missing)]
fn main() {}
