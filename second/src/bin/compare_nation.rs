//! Compares the national line of the first program and of the second (02, §10), from C
//! and from the program `nation`.
//!
//! `compare_nation [SEED [FILES [SECONDS]]]`, with the program's path in NILOFERQ_NATION and, if it
//! needs one, the command to start it with in NILOFERQ_RUNNER. 20,000 files of 0 to 12
//! returns, then some of 499, 500 and 501. Every file is asked for from C with a room of
//! the text's length and with another: one shorter, none at all, or longer. A whole file
//! is asked for once more with its returns in another order: its counts and figures have
//! to be the same. The first 500 of each stop, and of the whole files, are also given to
//! the program, and so are all long ones. Each stop is counted, and enough are due from C and from the program.

#[cfg(door_missing)]
compile_error!(
    "libdoor.a of the first program is missing: build it, or name its folder in NILOFERQ_LIB"
);

#[cfg(not(door_missing))]
mod run {
    use second::coverage::{Asked, Counters, Coverage, Due};
    use second::drive::{exit, first_of, memory_difference, Arguments};
    use second::ffi::nation::first_nation;
    use second::lent::{Lent, Placed};
    use second::lists::rows_of;
    use second::make::{BLOCK, CROPS};
    use second::nation::{Nation, Stop, MOST_BLOCKS, MOST_RETURNS, NATION_ROOM};
    use second::nations::{crowd, few, shuffle, End, File};
    use second::program::Program;
    use second::rng::Rng;
    use second::whereabouts::{cleared, missing_in};
    use std::process::ExitCode;
    use std::time::Instant;

    /// Files of 0 to 12 returns, and of about 500.
    const FEW: usize = 20_000;
    const CROWDS: usize = 700;
    /// Each stop is due so often, from C and from the program, which is given more only of
    /// the long files.
    const STOPS: usize = 500;
    const SHOWN: usize = 5;
    const GUARD: usize = 24;

    /// Why a run is stopped, told apart as the papers do.
    const SORTS: [&str; 6] = [
        "a whole file",
        "blocks, 0",
        "blocks, more than there may be",
        "short, under six bytes",
        "short, inside a return",
        "many",
    ];

    const ROOMS: [&str; 4] = ["exact", "short by one", "empty", "longer"];

    /// Refusal numbers that a return in a file can have, and how often each is due.
    const NUMBERS: [(u32, usize); 9] = [
        (2, STOPS),
        (3, STOPS),
        (4, STOPS),
        (5, STOPS),
        (6, STOPS),
        (7, STOPS),
        (12, STOPS),
        (13, 2_000),
        (14, 2_000),
    ];

    struct Tally {
        coverage: Coverage,
        stops: Counters,
        stops_of_program: Counters,
        /// By the number of returns in files of a few, from none to twelve.
        few: Counters,
        /// 499, 500 and 501.
        crowds: Counters,
        shuffled: Counters,
        refused: Counters,
        /// P below zero, above, and none.
        signs: Counters,
        /// Exact halves of Q and of co2.
        halves: Counters,
        rooms: Counters,
        /// Accepted returns with crops, and of all blocks.
        crops: Counters,
    }

    impl Tally {
        fn new() -> Self {
            let mut coverage = Coverage::default();
            let [often, some] = [Due::Times(STOPS), Due::Times(50)];
            let crowds = ["499 returns", "500 returns", "a 501st return"];
            let refused = coverage.add(Due::Told, [""; 0]);
            for (number, least) in NUMBERS {
                coverage.add(Due::Times(least), [format!("returns refused {number}")]);
            }
            Tally {
                stops: coverage.add(often, SORTS.map(|sort| format!("from C, {sort}"))),
                stops_of_program: coverage
                    .add(often, SORTS.map(|sort| format!("from the program, {sort}"))),
                few: coverage.add(often, (0..=12).map(|count| format!("{count} returns"))),
                crowds: coverage.add(some, crowds),
                shuffled: coverage.add(Due::Times(5_000), ["whole files in another order"]),
                refused,
                signs: coverage.add(
                    often,
                    ["below zero", "zero", "above"].map(|s| format!("P {s}")),
                ),
                halves: coverage.add(some, ["Q", "co2"].map(|s| format!("exact halves of {s}"))),
                rooms: coverage.add(often, ROOMS.map(|sort| format!("rooms, {sort}"))),
                crops: coverage.add(
                    Due::Times(2_000),
                    ["with crops", "of the most blocks"]
                        .map(|sort| format!("accepted returns {sort}")),
                ),
                coverage,
            }
        }

        fn note(&mut self, file: &File, due: &Nation, sort: usize) {
            let coverage = &mut self.coverage;
            coverage.count(self.stops, sort);
            let returns = due.accepted + due.refused.len();
            if is_long(file) {
                let many = usize::from(sort == SORTS.len() - 1);
                if let Some(nth) = (returns + many).checked_sub(MOST_RETURNS - 1) {
                    coverage.count(self.crowds, nth);
                }
            } else if file.end != End::Lost {
                coverage.count(self.few, returns);
            }
            for (_, refusal) in &due.refused {
                let nth = NUMBERS
                    .iter()
                    .position(|&(number, _)| number == refusal.number);
                coverage.count(
                    self.refused,
                    nth.expect("a number that a cut return can have"),
                );
            }
            for one in accepted(file, due) {
                let has_crops = one.iter().step_by(BLOCK).any(|&kind| kind == CROPS.kind);
                let sorts = [has_crops, one.len() == BLOCK * usize::from(MOST_BLOCKS)];
                for (nth, _) in sorts.iter().enumerate().filter(|(_, &is)| is) {
                    coverage.count(self.crops, nth);
                }
            }
            coverage.count(self.signs, (due.totals.p.signum() + 1) as usize);
            for (nth, tonnes) in due.totals.tonnes().iter().enumerate() {
                if tonnes.half().is_some() {
                    coverage.count(self.halves, nth);
                }
            }
        }
    }

    /// Whether it is one of about 500 returns.
    fn is_long(file: &File) -> bool {
        file.returns.len() > 13
    }

    /// The stop that is due, by its place among the sorts. Blocks are lost whole, so that
    /// a few bytes are left only where they were put behind the others.
    fn sort_of(due: &Nation, file: &File) -> usize {
        match due.stopped.map(|(_, stop)| stop) {
            None => 0,
            Some(Stop::Blocks(0)) => 1,
            Some(Stop::Blocks(_)) => 2,
            Some(Stop::Short) if (1..6).contains(&file.rest.len()) => 3,
            Some(Stop::Short) => 4,
            Some(Stop::Many) => 5,
        }
    }

    pub fn main() -> ExitCode {
        let Some(arguments) = Arguments::from_command("compare_nation") else {
            return ExitCode::FAILURE;
        };
        let Some(program) = Program::named("NATION") else {
            return ExitCode::FAILURE;
        };
        let few_files = arguments.inputs.unwrap_or(FEW);
        // Of a quick try a share of the long files, too.
        let files = few_files + (CROWDS * few_files).div_ceil(FEW);
        let (mut tally, mut made, mut differences) = (Tally::new(), 0, 0);
        let start = Instant::now();
        for index in 0..files {
            if arguments.over(start) {
                break;
            }
            made += 1;
            let mut rng = Rng::for_input(arguments.seed, index as u64);
            let file = match index.checked_sub(few_files) {
                None => few(index, &mut rng),
                Some(index) => crowd(index, &mut rng),
            };
            if let Some(difference) = try_one(&file, &program, &mut rng, &mut tally) {
                differences += 1;
                if differences <= SHOWN {
                    show((arguments.seed, index), &file, &difference);
                }
            }
        }
        tally.coverage.print(made);
        println!("compare nation: {made} inputs, {differences} differences");
        let usual = arguments.inputs.is_none();
        let reached = tally.coverage.reached(Asked {
            inputs: made,
            shares: usual,
            counts: usual,
        });
        exit(differences == 0 && reached)
    }

    fn show((seed, index): (u64, usize), file: &File, difference: &str) {
        println!("difference at file {index} of seed {seed}: {}", file.how);
        println!("  {difference}");
        let path = std::env::temp_dir().join(format!("niloferq-nation-{seed}-{index}.bin"));
        match std::fs::write(&path, file.bytes()) {
            Ok(()) => println!("  the file in {}", path.display()),
            Err(error) => println!("  the file not written: {error}"),
        }
    }

    fn try_one(file: &File, program: &Program, rng: &mut Rng, tally: &mut Tally) -> Option<String> {
        let bytes = file.bytes();
        let due = Nation::of(&bytes);
        let sort = sort_of(&due, file);
        tally.note(file, &due, sort);
        let text = due.text();
        let other = rng.below(ROOMS.len());
        let lent = match other {
            0 => text.len(),
            1 => text.len() - 1,
            2 => 0,
            _ => text.len() + 1 + rng.below(NATION_ROOM - text.len()),
        };
        let mut rooms = vec![(0, text.len())];
        if other > 0 {
            rooms.push((other, lent));
        }
        let cleared = cleared_in(file, &due);
        let from_c = first_of(rooms.into_iter().map(|(room, lent)| {
            tally.coverage.count(tally.rooms, room);
            ask(&bytes, (&text, cleared), lent, rng)
        }));
        let difference = from_c.or_else(|| in_another_order(file, &text, rng, tally));
        let (counted, of_program) = (&mut tally.coverage, tally.stops_of_program);
        let enough = counted.times(of_program, sort) >= STOPS && !is_long(file);
        if difference.is_some() || enough {
            return difference;
        }
        counted.count(of_program, sort);
        ask_program(program, &bytes, &text, rng.one_in(8))
    }

    /// The accepted returns of a file, where its returns are those that are cut; else none.
    fn accepted<'a>(file: &'a File, due: &'a Nation) -> impl Iterator<Item = &'a [u8]> {
        let refused = |position: usize| due.refused.iter().any(|&(at, _)| at == position);
        let returns = file.returns.iter().zip(1..);
        let accepted =
            returns.filter(move |&(_, position)| file.end != End::Lost && !refused(position));
        accepted.map(|(bytes, _)| &bytes[..])
    }

    /// What they clear.
    fn cleared_in(file: &File, due: &Nation) -> Option<u128> {
        let cleared = accepted(file, due).map(|bytes| cleared(&rows_of(bytes)));
        (file.end != End::Lost).then(|| cleared.sum())
    }

    /// A whole file's returns in another order: the text that the second program has for
    /// them, and from the counts on the same lines.
    fn in_another_order(
        file: &File,
        text: &str,
        rng: &mut Rng,
        tally: &mut Tally,
    ) -> Option<String> {
        if file.end != End::Whole || file.returns.len() < 2 {
            return None;
        }
        tally.coverage.count(tally.shuffled, 0);
        let mut returns = file.returns.clone();
        shuffle(rng, &mut returns);
        let bytes = returns.concat();
        let due = Nation::of(&bytes).text();
        let mut room = vec![0; NATION_ROOM];
        let length = first_nation(&bytes, Lent::whole(&mut room));
        let found = String::from_utf8_lossy(&room[..length.min(NATION_ROOM)]);
        let from_counts = |text: &str| text.find("accepted ").map(|at| text[at..].to_string());
        first_of([
            memory_difference("another order", found.as_bytes(), due.as_bytes()),
            (from_counts(&found) != from_counts(text))
                .then(|| format!("another order has other figures:\n{text}and\n{found}")),
        ])
    }

    /// The text in a room of this length, with all of our memory looked at afterwards.
    fn ask(
        bytes: &[u8],
        (text, cleared): (&str, Option<u128>),
        lent: usize,
        rng: &mut Rng,
    ) -> Option<String> {
        let placed = Placed::new(bytes, rng);
        let mut before = vec![0; lent + GUARD];
        rng.fill(&mut before);
        let mut room_due = before.clone();
        let fits = lent >= text.len();
        if fits {
            room_due[..text.len()].copy_from_slice(text.as_bytes());
        }
        let expected = if fits { text.len() } else { 0 };
        let mut room = before;
        let answer = first_nation(placed.bytes(), Lent::front(&mut room, lent));
        let found = String::from_utf8_lossy(&room[..answer.min(lent)]);
        let lost = cleared
            .filter(|_| answer > 0)
            .and_then(|cleared| missing_in(&found, cleared));
        let difference = first_of([
            (answer != expected).then(|| format!("length {answer}, due {expected}")),
            memory_difference("the room", &room, &room_due),
            memory_difference("the file itself", placed.bytes(), bytes),
            lost,
        ])?;
        let found = room[..answer.min(lent)].escape_ascii().to_string();
        let found = found.replace("\\n", "\n");
        Some(format!(
            "{difference}; room of {lent}\nfirst program:\n{found}second program:\n{text}"
        ))
    }

    fn ask_program(program: &Program, bytes: &[u8], text: &str, in_pieces: bool) -> Option<String> {
        let found = match program.output(bytes, in_pieces) {
            Ok(found) => found,
            Err(error) => return Some(error),
        };
        let difference = memory_difference("the output", &found, text.as_bytes())?;
        let found = String::from_utf8_lossy(&found);
        Some(format!(
            "{difference}\nfirst program:\n{found}second program:\n{text}"
        ))
    }
}

#[cfg(not(door_missing))]
fn main() -> std::process::ExitCode {
    run::main()
}

#[cfg(door_missing)]
fn main() {}
