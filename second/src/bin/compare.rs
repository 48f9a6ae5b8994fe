//! Compares the first program's judge with the second's on many inputs.
//!
//! `compare [SEED [INPUTS]]`. Each input stands in an allocation of its own
//! length, and the room for the counts is looked at whole afterwards.

#[cfg(door_missing)]
compile_error!(
    "libdoor.a of the first program is missing: build it, or name its folder in NILOFERQ_LIB"
);

#[cfg(not(door_missing))]
mod run {
    use second::case::Case;
    use second::coverage::{Coverage, Due};
    use second::drive::{exit, first_of, memory_difference, run, Arguments, Outcome, Plan};
    use second::ffi::judge::first_judge;
    use second::inputs;
    use second::kinds::COUNTS_ROOM;
    use second::lent::Lent;
    use second::reader::count;
    use second::rng::Rng;
    use std::process::ExitCode;

    /// The room in our memory; at most `MOST_LENT` of it is lent.
    const ROOM: usize = MOST_LENT + 4;
    const MOST_LENT: usize = COUNTS_ROOM + 5;

    /// The numbers that the requests put just before 9.
    const BEFORE_9: [u32; 3] = [12, 13, 14];

    pub fn main() -> ExitCode {
        let Some(arguments) = Arguments::from_command("compare") else {
            return ExitCode::FAILURE;
        };
        let plan = Plan {
            name: "judge",
            inputs: inputs::least(),
            least: inputs::least(),
            often: &[0, 1, 2, 3, 4, 5, 6, 7, 9, 12, 13, 14],
            counted: &[(13, 2_000), (14, 2_000)],
            sorts: 100,
            balances: 1_000,
            uneven: 100,
            retired: 100,
            crops: 5_000,
            crossed: 100,
        };
        let mut coverage = Coverage::default();
        let calls = coverage.add(
            Due::Told,
            ["calls", "calls with the input at an odd address"],
        );
        let before_9 = BEFORE_9.map(|number| format!("{number}, and the room too short"));
        let before_9 = coverage.add(Due::Times(1_000), before_9);
        let ran = run(&plan, arguments, inputs::plain, |case, rng| {
            let lent = rng.below(MOST_LENT + 1);
            let outcome = try_one(case, lent, rng, |nth| coverage.count(calls, nth));
            let number = BEFORE_9.iter().position(|&n| n == outcome.answer / 1000);
            if let Some(nth) = number.filter(|_| lent < COUNTS_ROOM) {
                coverage.count(before_9, nth);
            }
            outcome
        });
        exit(ran.with(&coverage).good())
    }

    fn try_one(case: &Case, lent: usize, rng: &mut Rng, mut called: impl FnMut(usize)) -> Outcome {
        let mut before = [0u32; ROOM];
        before.fill_with(|| rng.word());

        // "Lent room too short" is tried last; a refusal leaves the room as it
        // was, and acceptance writes the edition and the counts at its front.
        let mut room_due = before;
        let expected = count(&case.bytes, &mut room_due[..lent]);

        called(0);
        let exact: Box<[u8]> = case.bytes.as_slice().into();
        let mut difference = ask(&exact, 0, case, (before, lent), (expected, room_due));
        // Now and then also at an odd address, the end still the allocation's.
        if difference.is_none() && rng.one_in(8) {
            called(0);
            called(1);
            let shift = 1 + rng.below(7);
            let mut shifted = vec![0xA5; shift];
            shifted.extend_from_slice(&case.bytes);
            let shifted = shifted.into_boxed_slice();
            difference = ask(&shifted, shift, case, (before, lent), (expected, room_due));
        }
        Outcome {
            answer: expected,
            difference,
        }
    }

    fn ask(
        memory: &[u8],
        shift: usize,
        case: &Case,
        (before, lent): ([u32; ROOM], usize),
        (expected, room_due): (u32, [u32; ROOM]),
    ) -> Option<String> {
        let bytes = &memory[shift..];
        let mut room = before;
        let answer = first_judge(bytes, Lent::front(&mut room, lent));
        let wrong_answer = format!("first program {answer}, second program {expected}");
        let difference = first_of([
            (answer != expected).then_some(wrong_answer),
            memory_difference("the room", &room, &room_due),
            memory_difference("the input itself", bytes, &case.bytes),
        ])?;
        Some(format!(
            "{difference}; {} bytes, {shift} into their allocation, room of {lent}",
            bytes.len()
        ))
    }
}

#[cfg(not(door_missing))]
fn main() -> std::process::ExitCode {
    run::main()
}

#[cfg(door_missing)]
fn main() {}
