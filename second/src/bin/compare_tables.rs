//! Compares table 5-2 and the default parameters of the first program and of the second.
//!
//! `compare_tables [SEED]`. Every country and some numbers off the table, in every zone and some off the table, with rooms of 0 to 9 elements; the
//! defaults with rooms of 0 to 9 too. What stands in the rooms before is drawn, and all of our memory is looked at afterwards.

#[cfg(door_missing)]
compile_error!(
    "libdoor.a of the first program is missing: build it, or name its folder in NILOFERQ_LIB"
);

#[cfg(not(door_missing))]
mod run {
    use second::coverage::{Asked, Coverage, Due, Sort, Sorts};
    use second::drive::{exit, first_of, memory_difference, Arguments};
    use second::ffi::tables::{first_defaults, first_table52};
    use second::lent::Lent;
    use second::rng::Rng;
    use second::table52::{defaults, Entry, Table, COUNTRIES, ZONES};
    use std::process::ExitCode;

    const MOST_LENT: usize = 9;
    const GUARD: usize = 4;
    const MEMORY: usize = MOST_LENT + GUARD;
    /// Numbers that some reader might take for one on the table: 6 x 715,827,883 is 2 in 32 bits, and 6 x 2^31 is 0.
    #[rustfmt::skip]
    const OFF: [u32; 14] = [
        255, 256, 257, 539, 540, 65_535, 65_536, 65_541, 715_827_883, (1 << 31) - 1, 1 << 31, (1 << 31) + 1, u32::MAX - 1, u32::MAX,
    ];
    const DRAWN: usize = 10;
    const SORTS: [Sort<Entry>; 6] = [
        ("entries with all three figures", |entry| {
            given(entry) == [true; 3]
        }),
        ("entries with none", |entry| given(entry) == [false; 3]),
        ("entries with some", |entry| {
            ![[true; 3], [false; 3]].contains(&given(entry))
        }),
        ("entries with a figure of zero", |entry| {
            entry.figures.contains(&Some(0))
        }),
        ("entries with a rate below zero", |entry| {
            entry.figures[2].is_some_and(|rate| rate < 0)
        }),
        ("entries with an area of a million tenths", |entry| {
            entry.figures[0] > Some(1_000_000)
        }),
    ];
    const ANSWERS: [(u32, &str); 4] = [
        (0, "entries in a room that is enough"),
        (1, "countries off the table"),
        (2, "zones off the table"),
        (9000, "entries in a room that is too short"),
    ];

    fn given(entry: &Entry) -> [bool; 3] {
        entry.figures.map(|figure| figure.is_some())
    }

    pub fn main() -> ExitCode {
        let Some(arguments) = Arguments::from_command("compare_tables") else {
            return ExitCode::FAILURE;
        };
        let (table, mut rng) = (Table::read(), Rng::new(arguments.seed));
        let mut coverage = Coverage::default();
        let sorts = Sorts::new(&SORTS, Due::Once, &mut coverage);
        let entries = table.entries().iter();
        entries.for_each(|entry| sorts.note(entry, &mut coverage));
        let marked = coverage.add(Due::Told, ["entries that are marked"]);
        for _ in table.entries().iter().filter(|entry| entry.marked) {
            coverage.count(marked, 0);
        }
        let answers = coverage.add(Due::Once, ANSWERS.map(|(_, name)| name));
        let rooms = ["defaults, room too short", "defaults, room enough"];
        let rooms = coverage.add(Due::Once, rooms);
        let [mut calls, mut differences] = [0; 2];
        let mut note = |difference: Option<String>| {
            calls += 1;
            if let Some(difference) = difference {
                differences += 1;
                println!("{difference}");
            }
        };
        for country in numbers(COUNTRIES, &mut rng) {
            for zone in numbers(ZONES, &mut rng) {
                for lent in 0..=MOST_LENT {
                    let (due, difference) = ask_entry(&table, (country, zone), lent, &mut rng);
                    let nth = ANSWERS.iter().position(|(answer, _)| *answer == due);
                    coverage.count(answers, nth.expect("one of the answers"));
                    note(difference);
                }
            }
        }
        for lent in 0..=MOST_LENT {
            let (due, difference) = ask_defaults(lent, &mut rng);
            coverage.count(rooms, usize::from(due == 0));
            note(difference);
        }
        coverage.print(calls);
        println!("compare tables: {calls} inputs, {differences} differences");
        let asked = Asked {
            inputs: calls,
            shares: true,
            counts: true,
        };
        exit(differences == 0 && coverage.reached(asked))
    }

    /// All numbers on the table, those behind it, and others that aren't on it.
    fn numbers(on: usize, rng: &mut Rng) -> Vec<u32> {
        let first = on as u32;
        let mut all: Vec<u32> = (0..first + 4).collect();
        all.extend(OFF.iter().filter(|&&off| off >= first));
        all.extend((0..DRAWN).map(|_| rng.from_to(first, u32::MAX)));
        all
    }

    /// The answer due, and what differs.
    fn ask_entry(
        table: &Table,
        (country, zone): (u32, u32),
        lent: usize,
        rng: &mut Rng,
    ) -> (u32, Option<String>) {
        let before: [i32; MEMORY] = std::array::from_fn(|_| rng.word() as i32);
        let (mut due, mut room) = (before, before);
        let expected = table.look_up(country, zone, &mut due[..lent]);
        let answer = first_table52(country, zone, Lent::front(&mut room, lent));
        let what = format!("country {country}, zone {zone}, room of {lent}");
        (
            expected,
            difference(&what, [answer, expected], [&room, &due]),
        )
    }

    fn ask_defaults(lent: usize, rng: &mut Rng) -> (u32, Option<String>) {
        let before: [u32; MEMORY] = std::array::from_fn(|_| rng.word());
        let (mut due, mut room) = (before, before);
        let expected = defaults(&mut due[..lent]);
        let answer = first_defaults(Lent::front(&mut room, lent));
        let what = format!("defaults, room of {lent}");
        (
            expected,
            difference(&what, [answer, expected], [&room, &due]),
        )
    }

    fn difference<T: PartialEq + std::fmt::Debug>(
        what: &str,
        [answer, expected]: [u32; 2],
        [room, due]: [&[T; MEMORY]; 2],
    ) -> Option<String> {
        let found = first_of([
            (answer != expected)
                .then(|| format!("first program {answer}, second program {expected}")),
            memory_difference("the room", room, due),
        ]);
        found.map(|text| format!("{what}: {text}"))
    }
}

#[cfg(not(door_missing))]
fn main() -> std::process::ExitCode {
    run::main()
}

#[cfg(door_missing)]
fn main() {}
