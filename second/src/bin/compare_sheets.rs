//! Runs the first program's `sheets` on many inputs through its standard input
//! and compares the whole of its standard output; then `explain` on some.
//!
//! `compare_sheets [SEED [INPUTS]]`, with the programs' paths in NILOFERQ_SHEETS
//! and NILOFERQ_EXPLAIN and, if they need one, the command to start them with in
//! NILOFERQ_RUNNER, whose words are split at spaces. Some inputs are sent in
//! pieces. The exact halves among the figures are counted, and each is due.

use second::case::Case;
use second::coverage::{Coverage, Due};
use second::drive::{exit, memory_difference, run, Arguments, Outcome, Plan};
use second::explain::text as explain_text;
use second::halves::Halves;
use second::input::Input;
use second::inputs;
use second::judge::judge;
use second::kinds::RETURN_ROOM;
use second::make::{Rows, WITH_IDS};
use second::program::Program;
use second::rng::Rng;
use second::sheets::text as sheets_text;
use second::text::Text;
use second::whereabouts::{cleared, missing_in};
use second::{figures, mix, request, sweep};
use std::process::ExitCode;

/// "`sheets` takes one byte beyond the longest", and so does `explain`.
const TAKEN: usize = RETURN_ROOM + 1;
const INPUTS: usize = 2_400;
/// For `explain`, whose text is compared on many more without the program.
const EXPLAINED: usize = 1_150;
#[rustfmt::skip]
const LENGTHS: [usize; 25] = [
    0, 1, 2, 511, 512, 513, 1_024, 5_119, 5_120, 5_121, 5_632, 6_656, 6_657, 7_168, 8_192, 8_193, 9_728, 9_729, 20_480,
    TAKEN - 2, TAKEN - 1, TAKEN, TAKEN + 1, TAKEN + 511, TAKEN + 807,
];
const FILLINGS: usize = 5;

fn main() -> ExitCode {
    let Some(arguments) = Arguments::from_command("compare_sheets") else {
        return ExitCode::FAILURE;
    };
    let [Some(sheets), Some(explain)] = ["SHEETS", "EXPLAIN"].map(Program::named) else {
        return ExitCode::FAILURE;
    };
    let plan = Plan {
        name: "sheets",
        inputs: INPUTS,
        least: INPUTS,
        often: &[0, 1, 2, 3, 4, 5, 6, 7, 12, 13, 14],
        counted: &[],
        sorts: 10,
        balances: 5,
        uneven: 1,
        retired: 1,
        crops: 100,
        crossed: 1,
    };
    let mut coverage = Coverage::default();
    let halves = Halves::new(Due::Times(1), &mut coverage);
    let ran = run(&plan, arguments, make, |case, rng| {
        let outcome = try_one(&sheets, case, rng, sheets_text);
        if outcome.difference.is_none() {
            halves.note(&case.bytes, &mut coverage);
        }
        outcome
    });
    let good = ran.with(&coverage).good();

    let plan = Plan {
        name: "explain",
        inputs: EXPLAINED,
        least: EXPLAINED,
        // No sort of rows is asked of so few.
        sorts: 0,
        uneven: 0,
        retired: 0,
        crops: 0,
        crossed: 0,
        ..plan
    };
    let explained = run(&plan, arguments, make_explained, |case, rng| {
        try_one(&explain, case, rng, explain_text)
    });
    exit(good & explained.good())
}

/// The named lengths first, in every filling; then the requests' refusals, and
/// the inputs of the other comparisons.
fn make(index: usize, rng: &mut Rng) -> Case {
    if let Some(index) = index.checked_sub(LENGTHS.len() * FILLINGS) {
        if index < request::size() {
            return request::case(index, rng);
        }
        // The sweeps begin with thousands of lengths: a few of their inputs,
        // from all over them, have to do. Halves are rare, and want many.
        return match rng.below(8) {
            0 => sweep::case(rng.below(sweep::size()), rng),
            1..4 => figures::case(rng),
            _ => mix::case(rng),
        };
    }
    let (length, filling) = (LENGTHS[index / FILLINGS], index % FILLINGS);
    let mut bytes = match filling {
        0 => Vec::new(),
        // A full return, cut or with more behind it.
        1 => Rows::good(rng, [32; 3]).to_bytes(),
        2 => Rows::good(rng, [0; 3]).to_bytes(),
        3 => Rows::good_in_later(rng, [32; WITH_IDS.len()]).to_bytes(),
        _ => (0..length).map(|_| rng.byte()).collect(),
    };
    bytes.resize(length, 0);
    Case {
        how: format!("length {length}, filling {filling}"),
        bytes,
    }
}

/// As [`make`], but no sweeps behind the requests' refusals.
fn make_explained(index: usize, rng: &mut Rng) -> Case {
    if index < LENGTHS.len() * FILLINGS + request::size() {
        make(index, rng)
    } else if rng.one_in(4) {
        inputs::drawn_explained(rng)
    } else {
        mix::case(rng)
    }
}

fn try_one(program: &Program, case: &Case, rng: &mut Rng, text: fn(&[u8]) -> Text) -> Outcome {
    let taken = &case.bytes[..case.bytes.len().min(TAKEN)];
    let due = text(taken);
    let difference = match program.output(&case.bytes, rng.one_in(8)) {
        Err(error) => Some(error),
        Ok(found) => memory_difference("the output", &found, due.as_bytes())
            .map(|text| {
                let [found, due] = [&found[..], due.as_bytes()].map(String::from_utf8_lossy);
                format!("{text}\nfirst program:\n{found}second program:\n{due}")
            })
            .or_else(|| lost(case, &String::from_utf8_lossy(&found))),
    };
    Outcome {
        answer: judge(taken).answer(),
        difference,
    }
}

/// Whether the five totals of dry matter come to what is cleared, where there are figures.
fn lost(case: &Case, found: &str) -> Option<String> {
    match found.starts_with("refused") {
        true => None,
        false => missing_in(found, cleared(&case.lists())),
    }
}
