//! Calls every C function with every lent area fenced on both sides.
//!
//! `fenced [SEED [INPUTS]]`: each area in a mapping of its own between pages
//! without access, once flush against the page before it and once against the
//! page behind it, so that a single byte touched outside stops the program.
//! `fenced heap [SEED [INPUTS]]`: each area allocated by itself, for valgrind.
//! `fenced cross [heap] [before|behind] [read|write]`: touches one byte outside
//! an area on purpose and must be stopped. Without `heap` that is tried first.
//! The functions that pack and unpack come with the feature `texts`.
//! All answers and all memory are compared with the second program's. The exact
//! halves among the figures are counted, and so are the returns by their rows,
//! thinner ones, savannas and crops among them, and by the wood that is cleared
//! and used; each sort is due.

#[cfg(door_missing)]
compile_error!(
    "libdoor.a of the first program is missing: build it, or name its folder in NILOFERQ_LIB"
);

#[cfg(not(door_missing))]
mod calls;
#[cfg(not(door_missing))]
mod cross;
#[cfg(not(door_missing))]
mod rooms;
#[cfg(all(not(door_missing), feature = "texts"))]
mod texts;

#[cfg(not(door_missing))]
mod run {
    use crate::calls::nation_at;
    use crate::calls::{defaults_at, subtotal_at, table52_at, write_at, Fences};
    use crate::calls::{explain_at, figures_at, heaviest_at, judge_at, lines_at, read_at};
    use crate::cross::{cross_on_purpose, fences_stop};
    use crate::rooms::{Fit, Rooms};
    #[cfg(feature = "texts")]
    use crate::texts::{fault_of, texts_at, TextRooms};
    use second::answers::Answers;
    use second::balances::Balances;
    use second::case::Case;
    use second::coverage::{Asked, Coverage, Due};
    use second::drive::{exit, Arguments};
    use second::fence::Place;
    use second::halves::Halves;
    use second::input::Input;
    use second::judge::judge;
    use second::lists::RowLists;
    use second::nations::few;
    use second::rng::Rng;
    use second::row_sweeps;
    use second::rowlists;
    use second::sorts::RowSorts;
    use second::table52::Table;
    use second::{clashes, figures, mix, sweep, weights};
    #[cfg(feature = "texts")]
    use second::{
        fault::WORDS,
        texts::{self, TextCase},
        typed::typed,
    };
    use std::process::ExitCode;

    const INPUTS: usize = 2_000;
    pub const USAGE: &str = "fenced [heap] [SEED [INPUTS]], or \
        fenced cross [heap] [before|behind] [read|write]";

    const JUDGED: &[u32] = &[0, 1, 2, 3, 4, 5, 6, 7, 9, 12, 13, 14];
    const BY_CODE: &[u32] = &[0, 1, 2, 3, 4, 5, 6, 7, 9, 11, 12, 13, 14];
    /// Each function, with the answers that must come in each edition.
    const FUNCTIONS: [(&str, &[u32]); 11] = [
        ("judge", JUDGED),
        ("figures", JUDGED),
        ("lines", JUDGED),
        ("subtotal", BY_CODE),
        ("explain", JUDGED),
        ("heaviest", BY_CODE),
        ("read", JUDGED),
        ("write", &[0, 5, 6, 7, 9, 10, 12, 13, 14]),
        ("table52", &[0, 1, 2, 9]),
        ("defaults", &[0, 9]),
        ("nation", &[0, 1, 2, 9]),
    ];
    /// Those of the feature `texts`. Of packing, number 1 is any fault of the text.
    #[cfg(feature = "texts")]
    const TEXTS: &[(&str, &[u32])] = &[
        ("pack", &[0, 1, 5, 6, 7, 9, 10, 12, 13, 14]),
        ("pack_why", &[0, 1, 5, 6, 7, 9, 10, 12, 13, 14]),
        ("unpack", JUDGED),
    ];
    #[cfg(not(feature = "texts"))]
    const TEXTS: &[(&str, &[u32])] = &[];
    /// The longest file of returns: an area is not longer.
    const FILE: usize = 65_536;

    pub fn main() -> ExitCode {
        let words: Vec<String> = std::env::args().skip(1).collect();
        let words: Vec<&str> = words.iter().map(String::as_str).collect();
        match words.as_slice() {
            ["cross", how @ ..] => cross_on_purpose(how),
            ["heap", rest @ ..] => all_calls(&[Place::Heap], rest),
            rest if fences_stop() => all_calls(&[Place::Before, Place::Behind], rest),
            _ => ExitCode::FAILURE,
        }
    }

    /// A call of each function on every input in all three fits, at each place.
    fn all_calls(places: &[Place], words: &[&str]) -> ExitCode {
        let words = words.iter().map(|word| word.to_string());
        let read = Arguments::parse(words).filter(|read| read.seconds.is_none());
        let Some(arguments) = read else {
            eprintln!("{USAGE}");
            return ExitCode::FAILURE;
        };
        let mut fences = Fences::default();
        let mut coverage = Coverage::default();
        let functions: Vec<_> = FUNCTIONS.iter().chain(TEXTS).collect();
        let answers = functions.iter().map(|(name, often)| {
            let name = format!("{name} ");
            Answers::new(&name, often, [Due::Told, Due::Once], &mut coverage)
        });
        let answers: Vec<Answers> = answers.collect();
        let halves = Halves::new(Due::Times(1), &mut coverage);
        let sorts = RowSorts::new(Due::Times(1), &mut coverage);
        let balances = Balances::new(Due::Times(1), &mut coverage);
        #[cfg(feature = "texts")]
        let faults = coverage.add(Due::Once, WORDS.map(|word| format!("pack, fault {word}")));
        let (table, mut calls) = (Table::read(), 0);
        for index in 0..arguments.inputs.unwrap_or(INPUTS) {
            let mut rng = Rng::for_input(arguments.seed, index as u64);
            let case = any_return(&mut rng);
            let lists = any_lists(&mut rng);
            let file = any_file(index, &mut rng);
            #[cfg(feature = "texts")]
            let text = any_text(&mut rng);
            #[cfg(feature = "texts")]
            if let Some(fault) = fault_of(&text.bytes) {
                coverage.count(faults, fault - 1);
            }
            for fit in [Fit::Exact, Fit::Short, Fit::Longer] {
                let lent = Rooms::drawn((&case.bytes, &file), &lists, fit, &mut rng);
                #[cfg(feature = "texts")]
                let text_rooms = TextRooms::drawn(&text.bytes, &case.bytes, fit, &mut rng);
                for &place in places {
                    let found = [
                        judge_at(&mut fences, place, &case.bytes, &lent.counts),
                        figures_at(&mut fences, place, &case.bytes, &lent.figures),
                        lines_at(&mut fences, place, &case.bytes, &lent.text),
                        subtotal_at(&mut fences, place, &case.bytes, (lent.code, &lent.double)),
                        explain_at(&mut fences, place, &case.bytes, &lent.reasons),
                        heaviest_at(&mut fences, place, &case.bytes, (lent.code, &lent.heaviest)),
                        read_at(
                            &mut fences,
                            place,
                            &case.bytes,
                            (&lent.rows, &lent.row_counts),
                        ),
                        write_at(&mut fences, place, &lists, (&lent.blocks, &lent.size)),
                        table52_at(&mut fences, place, &table, lent.entry()),
                        defaults_at(&mut fences, place, &lent.defaults),
                        nation_at(&mut fences, place, &file, &lent.nation),
                    ];
                    let returned = case.edition();
                    // The last three have no edition, and are counted by the rows' all the same.
                    let editions = [returned; 7].into_iter().chain([lists.edition; 4]);
                    let found = found.into_iter().zip(editions);
                    #[cfg(feature = "texts")]
                    let found = {
                        let inputs = (&text.bytes[..], &case.bytes[..]);
                        let more = texts_at(&mut fences, place, inputs, &text_rooms);
                        let editions = [text.edition, text.edition, returned];
                        found.chain(more.into_iter().zip(editions))
                    };
                    let named = functions.iter().zip(&answers).zip(found);
                    for (((name, _), answers), ((number, difference), edition)) in named {
                        calls += 1;
                        answers.note(edition, number, &mut coverage);
                        if let Some(difference) = difference {
                            let seed = arguments.seed;
                            println!("{name}, input {index} of seed {seed}, {fit:?}, {place:?}:");
                            println!("  {difference}; {}; {}", case.how, lists.how);
                            #[cfg(feature = "texts")]
                            println!("  the text: {}", text.how);
                            return ExitCode::FAILURE;
                        }
                    }
                }
            }
            // A difference has ended the program before this.
            halves.note(&case.bytes, &mut coverage);
            let answer = judge(&case.bytes).answer();
            balances.note(answer / 1000, || case.lists(), &mut coverage);
            if answer == 0 {
                sorts.note(&case.lists(), &mut coverage);
            }
        }
        coverage.print(calls);
        println!("fenced: {calls} calls at {places:?}, 0 differences");
        let usual = arguments.inputs.is_none();
        exit(coverage.reached(Asked {
            inputs: calls,
            shares: usual,
            counts: usual,
        }))
    }

    /// From the comparisons' makers; of the sweeps any, for they are long.
    fn any_return(rng: &mut Rng) -> Case {
        match rng.below(10) {
            0 | 1 => sweep::case(rng.below(sweep::size()), rng),
            2 | 3 => figures::case(rng),
            4 => clashes::case(rng),
            5 => weights::case(rng),
            _ => mix::case(rng),
        }
    }

    fn any_file(index: usize, rng: &mut Rng) -> Vec<u8> {
        let mut files = std::iter::repeat_with(|| few(index, rng).bytes());
        files
            .find(|file| file.len() <= FILE)
            .expect("most files are short")
    }

    /// Its edition is the one that it says, where that is known.
    #[cfg(feature = "texts")]
    fn any_text(rng: &mut Rng) -> TextCase {
        let mut text = texts::case(rng);
        if let Ok(typed) = typed(&text.bytes) {
            text.edition = typed.edition;
        }
        text
    }

    fn any_lists(rng: &mut Rng) -> RowLists {
        match rng.below(4) {
            0 => row_sweeps::case(rng.below(row_sweeps::size()), rng),
            _ => rowlists::case(rng),
        }
    }
}

#[cfg(not(door_missing))]
fn main() -> std::process::ExitCode {
    run::main()
}

#[cfg(door_missing)]
fn main() {}
