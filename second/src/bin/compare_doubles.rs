//! Compares the doubles of the first program and of the second, bit for bit.
//!
//! `compare_doubles [SEED [INPUTS]]`. Every input is asked for with all three
//! codes and a good room, and once with any code and any room; that call is the
//! one in the table. Demand 3 is tried in whole numbers on every accepted input.

#[cfg(door_missing)]
compile_error!(
    "libdoor.a of the first program is missing: build it, or name its folder in NILOFERQ_LIB"
);

#[cfg(not(door_missing))]
mod run {
    use second::bound::holds;
    use second::case::Case;
    use second::coverage::{Coverage, Due};
    use second::doubles::subtotal;
    use second::drive::{exit, first_of, memory_difference, run, Arguments, Outcome, Plan};
    use second::ffi::doubles::first_subtotal;
    use second::inputs;
    use second::judge::check;
    use second::lent::{Lent, Placed};
    use second::rng::Rng;
    use second::sheets::Worksheets;
    use std::process::ExitCode;

    const GUARD: usize = 8;
    const MOST_LENT: usize = 24;
    const MEMORY: usize = MOST_LENT + GUARD;
    type Memory = [u8; MEMORY];

    /// The numbers that the requests put just before 11 and 9.
    const BEFORE_11: [u32; 3] = [12, 13, 14];

    pub fn main() -> ExitCode {
        let Some(arguments) = Arguments::from_command("compare_doubles") else {
            return ExitCode::FAILURE;
        };
        let plan = Plan {
            name: "doubles",
            inputs: inputs::least(),
            least: inputs::least(),
            often: &[0, 1, 2, 3, 4, 5, 6, 7, 9, 11, 12, 13, 14],
            counted: &[(13, 2_000), (14, 2_000)],
            sorts: 100,
            balances: 1_000,
            uneven: 100,
            retired: 100,
            crops: 5_000,
            crossed: 100,
        };
        let mut coverage = Coverage::default();
        let tried = [
            "calls",
            "doubles of accepted inputs that demand 3 was tried on",
        ];
        let tried = coverage.add(Due::Told, tried);
        let before = BEFORE_11.map(|number| {
            let wrong = ["a code above 2", "the room too short"];
            let wrong = wrong.map(|wrong| format!("{number}, and {wrong}"));
            coverage.add(Due::Times(1_000), wrong)
        });
        let ran = run(&plan, arguments, inputs::with_figures, |case, rng| {
            let asked = (any_code(rng), any_lent(rng));
            let outcome = try_one(case, asked, rng, |nth| coverage.count(tried, nth));
            let wrong = [asked.0 > 2, asked.1 < 8];
            let number = BEFORE_11.iter().position(|&n| n == outcome.answer / 1000);
            for (nth, _) in wrong.iter().enumerate().filter(|(_, &wrong)| wrong) {
                number
                    .into_iter()
                    .for_each(|number| coverage.count(before[number], nth));
            }
            outcome
        });
        exit(ran.with(&coverage).good())
    }

    /// A wrong code with a short room shows which of 11 and 9 comes first.
    fn any_code(rng: &mut Rng) -> u32 {
        match rng.below(8) {
            0 => 3,
            1 => rng.pick(&[4, 255, 256, 65_536, 1 << 31, u32::MAX - 1, u32::MAX]),
            2 => rng.word(),
            _ => rng.below(3) as u32,
        }
    }

    fn any_lent(rng: &mut Rng) -> usize {
        match rng.below(4) {
            0 => rng.below(8),
            1 => rng.pick(&[7, 8, 9]),
            _ => rng.below(MOST_LENT + 1),
        }
    }

    /// What is counted.
    const CALL: usize = 0;
    const HELD: usize = 1;

    fn try_one(
        case: &Case,
        (code, lent): (u32, usize),
        rng: &mut Rng,
        mut tried: impl FnMut(usize),
    ) -> Outcome {
        let mut before = [0; MEMORY];
        rng.fill(&mut before);
        let placed = Placed::new(&case.bytes, rng);
        let bytes = placed.bytes();
        let mut ask = |code, lent| {
            tried(CALL);
            ask(bytes, case, before, (code, lent))
        };

        let (answer, drawn) = ask(code, lent);
        // The room may be exact or longer.
        let longer = 8 + rng.below(MOST_LENT - 7);
        let others = [0, 1, 2].map(|code| ask(code, if code == 1 { 8 } else { longer }).1);
        let bound = demand_3(bytes, tried);
        Outcome {
            answer,
            difference: first_of([drawn].into_iter().chain(others).chain([bound])),
        }
    }

    /// The answer due, and what differs.
    fn ask(
        bytes: &[u8],
        case: &Case,
        before: Memory,
        (code, lent): (u32, usize),
    ) -> (u32, Option<String>) {
        let mut due = before;
        let expected = subtotal(bytes, code, &mut due[..lent]);
        let mut room = before;
        let answer = first_subtotal(bytes, code, Lent::front(&mut room, lent));
        let wrong = format!("first program {answer}, second program {expected}");
        let difference = first_of([
            (answer != expected).then_some(wrong),
            memory_difference("the room", &room, &due),
            memory_difference("the input itself", bytes, &case.bytes),
        ]);
        let difference = difference.map(|text| format!("{text}; code {code}, room of {lent}"));
        (expected, difference)
    }

    /// Demand 3 on the first program's own doubles.
    fn demand_3(bytes: &[u8], mut tried: impl FnMut(usize)) -> Option<String> {
        let checked = check(bytes).ok()?;
        let figures = Worksheets::of(checked);
        let exact = [figures.onsite, figures.offsite, figures.decay];
        for (code, exact) in (0..).zip(exact) {
            let mut room = [0; 8];
            let answer = first_subtotal(bytes, code, Lent::whole(&mut room));
            let double = f64::from_le_bytes(room);
            tried(HELD);
            if answer != 0 || !holds(double, exact, checked.counts.rows[0]) {
                return Some(format!(
                    "demand 3, code {code}: {double:?} for {exact}, answer {answer}"
                ));
            }
        }
        None
    }
}

#[cfg(not(door_missing))]
fn main() -> std::process::ExitCode {
    run::main()
}

#[cfg(door_missing)]
fn main() {}
