//! Compares reading and writing of the first program and of the second.
//!
//! `compare_rows [SEED [INPUTS]]`. Every good return is read into exact rooms
//! and into some drawn from longer ones and short ones, all good rows are
//! written into such rooms; what is refused is tried with one of them. One call
//! of each, drawn at random, is the one in the table. All of our memory is
//! looked at afterwards, the guards behind the rooms included. What is accepted
//! goes back the other way and must come out the same. Some are also tried with
//! rooms of every length there is.

#[cfg(door_missing)]
compile_error!(
    "libdoor.a of the first program is missing: build it, or name its folder in NILOFERQ_LIB"
);

#[cfg(not(door_missing))]
mod reading;
#[cfg(not(door_missing))]
mod writing;

#[cfg(not(door_missing))]
mod run {
    use second::coverage::{Counters, Coverage, Due};
    use second::drive::{exit, Arguments};
    use second::kinds::KINDS;
    use second::make::{Rows, WITH_IDS};
    use second::rng::Rng;
    use std::process::ExitCode;

    pub const GUARD: usize = 16;
    /// How much longer than needed a room may be.
    pub const LONGER: usize = 20;
    /// Rooms that are tried beside the exact ones.
    const DRAWN: usize = 2;
    /// The numbers that the requests put just before 9.
    const BEFORE_9: [u32; 3] = [12, 13, 14];
    /// Editions and row counts that are tried with rooms of every length: full
    /// returns, some with kinds left out, and the parameters alone.
    const EVERY_LENGTH: [(u16, &[usize]); 14] = [
        (1, &[32, 32, 32]),
        (1, &[2, 0, 3]),
        (1, &[0, 1, 12]),
        (1, &[]),
        (2, &[32; WITH_IDS.len()]),
        (2, &[1, 0, 0, 13]),
        (2, &[0, 2, 0, 0, 13]),
        (2, &[0, 0, 0, 2, 3]),
        (2, &[0, 1, 0, 0, 2, 13]),
        (2, &[0, 0, 1, 0, 0, 0, 13]),
        (2, &[]),
        (3, &[0, 13, 2, 1, 0, 2]),
        (3, &[1, 0, 0, 0, 2, 0, 3]),
        (3, &[]),
    ];

    pub fn main() -> ExitCode {
        let Some(arguments) = Arguments::from_command("compare_rows") else {
            return ExitCode::FAILURE;
        };
        let read = super::reading::compare(arguments);
        let write = super::writing::compare(arguments);
        exit(read && write)
    }

    /// Further calls and round trips, besides the table.
    pub struct Tally {
        pub coverage: Coverage,
        calls: Counters,
        round_trips: Counters,
        /// Each place of the number that has one for each kind: 9 when reading,
        /// 10 when writing.
        number: u32,
        places: Counters,
        /// Each of [`BEFORE_9`], though the rooms are too short for any return.
        before_9: Counters,
    }

    impl Tally {
        pub fn new(number: u32) -> Self {
            let mut coverage = Coverage::default();
            let places = (0..=KINDS.len()).map(|place| format!("number {number} at place {place}"));
            Tally {
                calls: coverage.add(Due::Told, ["calls"]),
                round_trips: coverage.add(Due::Told, ["round trips"]),
                number,
                places: coverage.add(Due::Once, places),
                before_9: coverage.add(
                    Due::Times(1_000),
                    BEFORE_9.map(|number| format!("{number}, and the rooms too short")),
                ),
                coverage,
            }
        }

        pub fn note(&mut self, answer: u32, too_short: bool) {
            self.coverage.count(self.calls, 0);
            let number = BEFORE_9.iter().position(|&n| n == answer / 1000);
            if let Some(nth) = number.filter(|_| too_short) {
                self.coverage.count(self.before_9, nth);
            }
            if answer / 1000 == self.number {
                self.coverage.count(self.places, (answer % 1000) as usize);
            }
        }

        pub fn note_round_trip(&mut self) {
            self.coverage.count(self.round_trips, 0);
        }
    }

    pub fn exact_and_drawn<T: Copy>(exact: T, others: &[T], rng: &mut Rng) -> Vec<T> {
        let mut rooms = vec![exact];
        rooms.extend((0..DRAWN).map(|_| rng.pick(others)));
        rooms
    }

    /// Goes over rows to be tried with rooms of every length: the calls made,
    /// or the first difference. Says what came of it.
    pub fn every_length(
        what: &str,
        seed: u64,
        try_one: impl Fn(&Rows, &mut Rng) -> Result<usize, String>,
    ) -> bool {
        let mut rng = Rng::new(seed);
        let calls = EVERY_LENGTH.map(|(edition, counts)| {
            let rows = Rows::good_in(&mut rng, edition, counts);
            try_one(&rows, &mut rng)
        });
        let calls: Result<Vec<usize>, String> = calls.into_iter().collect();
        match calls {
            Ok(calls) => {
                let calls: usize = calls.iter().sum();
                println!("{what}, rooms of every length: {calls} calls, no difference");
                true
            }
            Err(difference) => {
                println!("{what}, rooms of every length, seed {seed}: {difference}");
                false
            }
        }
    }
}

#[cfg(not(door_missing))]
fn main() -> std::process::ExitCode {
    run::main()
}

#[cfg(door_missing)]
fn main() {}
