//! Looks for returns whose doubles round as badly as can be found, and sets
//! the worst ratio beside demand 3's n + 2. `worst [SEED]`.

use second::worst::{search, Which};
use std::process::ExitCode;

const TRIES: usize = 20_000;

fn main() -> ExitCode {
    let mut arguments = std::env::args().skip(1);
    let seed = match arguments.next().map(|word| word.parse()) {
        None => 20_260_101,
        Some(Ok(seed)) => seed,
        Some(Err(_)) => {
            eprintln!("worst [SEED]: a whole number");
            return ExitCode::FAILURE;
        }
    };
    println!("{TRIES} returns for each ratio of distance x 2^53 to the exact subtotal");
    println!(
        "{:>4}{:>7}{:>10}{:>14}{:>14}",
        "n", "n + 2", "subtotal", "random start", "steep start"
    );
    let mut kept = true;
    for rows in [1, 2, 3, 4, 8, 12, 16, 24, 32] {
        for which in Which::ALL {
            let random = search(seed, rows, which, false, TRIES);
            let steep = search(seed, rows, which, true, TRIES);
            kept &= random.kept && steep.kept;
            println!(
                "{rows:>4}{:>7}{:>10}{:>14.4}{:>14.4}",
                rows + 2,
                format!("{which:?}"),
                random.ratio,
                steep.ratio
            );
        }
    }
    if kept {
        println!("demand 3 held on every return");
        ExitCode::SUCCESS
    } else {
        println!("demand 3 was broken");
        ExitCode::FAILURE
    }
}
