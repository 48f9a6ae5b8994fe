//! Compares the text of `explain`, and the heaviest rows as numbers, from the
//! first program and from the second.
//!
//! `compare_explain [SEED [INPUTS]]`. Every input is asked for with a room of the
//! text's length and with another: one shorter, none at all, or of any length. A
//! heaviest row is asked for with any code and any room, and of a good return
//! with each code and a room that is long enough. All of our memory is looked at
//! afterwards, the guard behind the room included. Each number, each fault of
//! number 4, each kind of row that a number names and each field is counted, and so
//! are ties and subtotals of zero; of each enough are due.

#[cfg(door_missing)]
compile_error!(
    "libdoor.a of the first program is missing: build it, or name its folder in NILOFERQ_LIB"
);

#[cfg(not(door_missing))]
mod run {
    use second::case::Case;
    use second::coverage::{Counters, Coverage, Due};
    use second::drive::{exit, first_of, memory_difference, run, Arguments, Outcome, Plan};
    use second::explain::{text, EXPLAIN_ROOM};
    use second::ffi::explain::{first_explain, first_heaviest};
    use second::heaviest::{heaviest, HEAVIEST_ROOM};
    use second::input::Input;
    use second::inputs;
    use second::judge::judge;
    use second::lent::{Lent, Placed};
    use second::reasons::Reasons;
    use second::rng::Rng;
    use second::text::Text;
    use second::whereabouts::{cleared, missing_in};
    use std::process::ExitCode;

    const GUARD: usize = 24;
    /// More than is always enough.
    const MOST_LENT: usize = EXPLAIN_ROOM + 20;
    const MEMORY: usize = MOST_LENT + GUARD;
    const MOST_NUMBERS: usize = HEAVIEST_ROOM + 5;
    const NUMBER_MEMORY: usize = MOST_NUMBERS + GUARD;
    /// Of each number, each fault and each field; the usual run has 230 of the
    /// rarest.
    const LEAST: usize = 100;
    /// Of each number with each kind of row, and with its id; the usual run has 930
    /// of the rarest.
    const LEAST_ROWS: usize = 500;

    /// The numbers that the requests put just before 11 and 9.
    const BEFORE_11: [u32; 3] = [12, 13, 14];

    /// What is counted of the calls.
    struct Tally {
        coverage: Coverage,
        texts: Counters,
        /// Calls for a row, refused with 11, and with 9.
        rows: Counters,
        refused: Counters,
        /// For each of [`BEFORE_11`], refused with it though the code is above 2, and
        /// though the room is short.
        before_11: [Counters; BEFORE_11.len()],
        reasons: Reasons,
    }

    impl Tally {
        fn new() -> Self {
            let (mut coverage, due) = (Coverage::default(), Due::Times(LEAST));
            let refused = ["11", "9"].map(|number| format!("heaviest rows refused {number}"));
            let before_11 = BEFORE_11.map(|number| {
                let wrong = ["a code above 2", "the room too short"];
                let wrong = wrong.map(|more| format!("heaviest rows refused {number}, and {more}"));
                coverage.add(Due::Times(1_000), wrong)
            });
            Tally {
                reasons: Reasons::new(due, Due::Times(LEAST_ROWS), &mut coverage),
                texts: coverage.add(Due::Told, ["texts"]),
                rows: coverage.add(Due::Told, ["heaviest rows asked for"]),
                refused: coverage.add(due, refused),
                before_11,
                coverage,
            }
        }
    }

    pub fn main() -> ExitCode {
        let Some(arguments) = Arguments::from_command("compare_explain") else {
            return ExitCode::FAILURE;
        };
        let plan = Plan {
            name: "reasons",
            inputs: inputs::least_explained(),
            least: inputs::least_explained(),
            often: &[0, 1, 2, 3, 4, 5, 6, 7, 12, 13, 14],
            counted: &[(13, 2_000), (14, 2_000)],
            sorts: 100,
            balances: 1_000,
            uneven: 100,
            retired: 100,
            crops: 5_000,
            crossed: 100,
        };
        let mut tally = Tally::new();
        let ran = run(&plan, arguments, inputs::explained, |case, rng| {
            try_one(case, rng, &mut tally)
        });
        exit(ran.with(&tally.coverage).good())
    }

    fn try_one(case: &Case, rng: &mut Rng, tally: &mut Tally) -> Outcome {
        let answer = judge(&case.bytes).answer();
        let due = text(&case.bytes);
        let reasons = &tally.reasons;
        reasons.note(&case.bytes, due.as_bytes(), &mut tally.coverage);
        let placed = Placed::new(&case.bytes, rng);
        let bytes = placed.bytes();

        let length = due.as_bytes().len();
        let other = match rng.below(4) {
            0 => length - 1,
            1 => 0,
            2 => length + 1 + rng.below(9),
            _ => rng.below(MOST_LENT + 1),
        };
        let mut before = [0u8; MEMORY];
        rng.fill(&mut before);
        let texts = first_of([length, other].map(|lent| {
            tally.coverage.count(tally.texts, 0);
            ask_text(bytes, case, &due, (before, lent))
        }));

        let code = match rng.below(4) {
            0 => 3,
            1 => rng.pick(&[4, 255, 256, 65_536, 1 << 31, u32::MAX - 1, u32::MAX]),
            2 => rng.word(),
            _ => rng.below(3) as u32,
        };
        let lent = match rng.below(3) {
            0 => rng.below(HEAVIEST_ROOM),
            1 => rng.pick(&[HEAVIEST_ROOM - 1, HEAVIEST_ROOM, HEAVIEST_ROOM + 1]),
            _ => rng.below(MOST_NUMBERS + 1),
        };
        let drawn = ask_row(bytes, case, (code, lent), rng, tally);
        // A refused return is refused with any code, which the call above has shown.
        let codes: &[u32] = if answer == 0 { &[0, 1, 2] } else { &[] };
        let good = codes.iter().map(|&code| {
            let lent = HEAVIEST_ROOM + rng.pick(&[0, 0, 1, 5]);
            ask_row(bytes, case, (code, lent), rng, tally)
        });
        Outcome {
            answer,
            difference: first_of([texts, drawn].into_iter().chain(good)),
        }
    }

    fn ask_text(
        bytes: &[u8],
        case: &Case,
        due: &Text,
        (before, lent): ([u8; MEMORY], usize),
    ) -> Option<String> {
        let mut room_due = before;
        let expected = due.put_into(&mut room_due[..lent]);
        let mut room = before;
        let answer = first_explain(bytes, Lent::front(&mut room, lent));
        let text = String::from_utf8_lossy(&room[..answer.min(lent)]);
        let accepted = answer > 0 && !text.starts_with("refused");
        let difference = first_of([
            (answer != expected).then_some("another length".to_string()),
            memory_difference("the room", &room, &room_due),
            memory_difference("the input itself", bytes, &case.bytes),
            accepted
                .then(|| missing_in(&text, cleared(&case.lists())))
                .flatten(),
        ])?;
        let shown = |text: &[u8]| text.escape_ascii().to_string().replace("\\n", "\n");
        Some(format!(
            "{difference}; room of {lent}\nfirst program {answer}:\n{}second program {expected}:\n{}",
            shown(&room[..answer.min(MEMORY)]),
            shown(due.as_bytes())
        ))
    }

    fn ask_row(
        bytes: &[u8],
        case: &Case,
        (code, lent): (u32, usize),
        rng: &mut Rng,
        tally: &mut Tally,
    ) -> Option<String> {
        let mut before = [0u64; NUMBER_MEMORY];
        before.iter_mut().for_each(|number| *number = rng.draw());
        let (mut room, mut room_due) = (before, before);
        let expected = heaviest(bytes, code, &mut room_due[..lent]);
        tally.coverage.count(tally.rows, 0);
        if let Some(nth) = [11_000, 9000].iter().position(|&due| due == expected) {
            tally.coverage.count(tally.refused, nth);
        }
        let wrong = [code > 2, lent < HEAVIEST_ROOM];
        let number = BEFORE_11.iter().position(|&n| n == expected / 1000);
        if let Some(number) = number {
            for (nth, _) in wrong.iter().enumerate().filter(|(_, &wrong)| wrong) {
                tally.coverage.count(tally.before_11[number], nth);
            }
        }
        let answer = first_heaviest(bytes, code, Lent::front(&mut room, lent));
        let difference = first_of([
            (answer != expected).then(|| format!("answer {answer}, due {expected}")),
            memory_difference("the room", &room, &room_due),
            memory_difference("the input itself", bytes, &case.bytes),
        ])?;
        Some(format!(
            "heaviest row: {difference}; code {code}, room of {lent}"
        ))
    }
}

#[cfg(not(door_missing))]
fn main() -> std::process::ExitCode {
    run::main()
}

#[cfg(door_missing)]
fn main() {}
