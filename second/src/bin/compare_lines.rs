//! Compares the text of `sheets`, and the figures as numbers, from the first
//! program and from the second.
//!
//! `compare_lines [SEED [INPUTS]]`. Every input is asked for with a room of the
//! text's length and with one other, drawn: one shorter, none at all, one near
//! the length or one of any length; and for its numbers with an exact room and
//! one other, one shorter or longer, none or of any length. All of our memory
//! is looked at afterwards, the guard behind the room included. The sorts of
//! rooms and the exact halves among the figures are counted, and enough of each
//! are due.

#[cfg(door_missing)]
compile_error!(
    "libdoor.a of the first program is missing: build it, or name its folder in NILOFERQ_LIB"
);

#[cfg(not(door_missing))]
mod run {
    use second::case::Case;
    use second::coverage::{Coverage, Due};
    use second::drive::{exit, first_of, memory_difference, run, Arguments, Outcome, Plan};
    use second::ffi::lines::{first_figures, first_lines};
    use second::halves::Halves;
    use second::input::Input;
    use second::inputs;
    use second::judge::judge;
    use second::lent::{Lent, Placed};
    use second::matter::NAMES;
    use second::rng::Rng;
    use second::sheets::{figures, lines, NUMBERS};
    use second::text::LINES_ROOM;
    use second::whereabouts::{cleared, missing, missing_in};
    use std::process::ExitCode;

    const GUARD: usize = 24;
    /// Where the totals of dry matter begin among the figures.
    const MATTER_AT: usize = 28;
    /// More than is always enough.
    const MOST_LENT: usize = LINES_ROOM + 50;
    const MEMORY: usize = MOST_LENT + GUARD;
    const MOST_NUMBERS: usize = NUMBERS + 9;
    const NUMBER_MEMORY: usize = MOST_NUMBERS + GUARD;
    /// Of each figure and each way; the usual run has some 2,000.
    const LEAST_HALVES: usize = 100;
    /// The other rooms for the text, and in how many of a thousand inputs each is due; the usual run has 250.
    const OTHER_ROOMS: [&str; 4] = ["short by one", "empty", "near the length", "of any length"];
    const LEAST_ROOMS: usize = 160;

    pub fn main() -> ExitCode {
        let Some(arguments) = Arguments::from_command("compare_lines") else {
            return ExitCode::FAILURE;
        };
        let plan = Plan {
            name: "lines",
            inputs: inputs::least(),
            least: inputs::least(),
            often: &[0, 1, 2, 3, 4, 5, 6, 7, 12, 13, 14],
            counted: &[(13, 2_000), (14, 2_000)],
            sorts: 100,
            balances: 1_000,
            uneven: 100,
            retired: 100,
            crops: 5_000,
            crossed: 100,
        };
        let mut coverage = Coverage::default();
        let calls = coverage.add(Due::Told, ["calls, lines and figures"]);
        let rooms = OTHER_ROOMS.map(|sort| format!("texts to a room {sort}"));
        let rooms = coverage.add(Due::Thousandths(LEAST_ROOMS), rooms);
        let halves = Halves::new(Due::Times(LEAST_HALVES), &mut coverage);
        let ran = run(&plan, arguments, inputs::with_figures, |case, rng| {
            let sort = rng.below(OTHER_ROOMS.len());
            coverage.count(rooms, sort);
            let outcome = try_one(case, rng, sort, || coverage.count(calls, 0));
            if outcome.difference.is_none() {
                halves.note(&case.bytes, &mut coverage);
            }
            outcome
        });
        exit(ran.with(&coverage).good())
    }

    /// The sort of the other room is drawn, and not by the input's number: one input in four is of the sweeps.
    fn try_one(case: &Case, rng: &mut Rng, sort: usize, mut called: impl FnMut()) -> Outcome {
        let mut before = [0u8; MEMORY];
        rng.fill(&mut before);
        // The text, from a room that is long enough: what is due of an exact one too.
        let mut text = before;
        let length = lines(&case.bytes, &mut text[..MOST_LENT]);
        let near = (length + rng.below(9)).saturating_sub(4);
        let other = [length - 1, 0, near, rng.below(MOST_LENT + 1)][sort];
        let placed = Placed::new(&case.bytes, rng);
        let mut short = before;
        let answer = lines(&case.bytes, &mut short[..other]);
        let rooms = [(length, length, &text), (other, answer, &short)];
        let difference = first_of(rooms.map(|(lent, expected, due)| {
            called();
            ask(placed.bytes(), case, before, (lent, expected, due))
        }))
        .or_else(|| ask_figures(placed.bytes(), case, rng, &mut called));
        Outcome {
            answer: judge(&case.bytes).answer(),
            difference,
        }
    }

    /// The figures as numbers, in a room long enough and in one that may not be.
    fn ask_figures(
        bytes: &[u8],
        case: &Case,
        rng: &mut Rng,
        mut called: impl FnMut(),
    ) -> Option<String> {
        let other = rng.below(MOST_NUMBERS + 1);
        let lent = rng.pick(&[NUMBERS - 1, NUMBERS + 1, 0, other]);
        first_of([NUMBERS, lent].map(|lent| {
            called();
            let mut before = [0u64; NUMBER_MEMORY];
            before.iter_mut().for_each(|number| *number = rng.draw());
            let (mut due, mut room) = (before, before);
            let expected = figures(bytes, &mut due[..lent]);
            let answer = first_figures(bytes, Lent::front(&mut room, lent));
            let difference = first_of([
                (answer != expected).then(|| format!("answer {answer}, due {expected}")),
                memory_difference("the room", &room, &due),
                memory_difference("the input itself", bytes, &case.bytes),
                (answer == 0).then(|| lost(case, &room)).flatten(),
            ])?;
            Some(format!("figures: {difference}; room of {lent}"))
        }))
    }

    /// Whether the first program's five totals of dry matter come to what is cleared.
    fn lost(case: &Case, room: &[u64]) -> Option<String> {
        let figures = room[..NUMBERS].chunks(3).skip(MATTER_AT);
        let five = figures.take(NAMES.len());
        let wide = |figure: &[u64]| u128::from(figure[1]) << 64 | u128::from(figure[2]);
        missing(five.map(wide), cleared(&case.lists()))
    }

    /// The text in a room, with the answer and the memory that are due.
    fn ask(
        bytes: &[u8],
        case: &Case,
        before: [u8; MEMORY],
        (lent, expected, due): (usize, usize, &[u8; MEMORY]),
    ) -> Option<String> {
        let mut room = before;
        let answer = first_lines(bytes, Lent::front(&mut room, lent));
        let text = String::from_utf8_lossy(&room[..answer.min(lent)]);
        let figures = answer > 0 && !text.starts_with("refused");
        let difference = first_of([
            (answer != expected).then_some("another length".to_string()),
            memory_difference("the room", &room, due),
            memory_difference("the input itself", bytes, &case.bytes),
            figures
                .then(|| missing_in(&text, cleared(&case.lists())))
                .flatten(),
        ])?;
        // Line feeds as they are, anything else that isn't text by its code.
        let shown = |room: &[u8], length: usize| {
            let shown = room[..length.min(MEMORY)].escape_ascii().to_string();
            shown.replace("\\n", "\n")
        };
        Some(format!(
            "{difference}; room of {lent}\nfirst program {answer}:\n{}second program {expected}:\n{}",
            shown(&room, answer),
            shown(due, expected)
        ))
    }
}

#[cfg(not(door_missing))]
fn main() -> std::process::ExitCode {
    run::main()
}

#[cfg(door_missing)]
fn main() {}
