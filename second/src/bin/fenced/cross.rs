//! Fences crossed on purpose, which must be seen.

use crate::run::USAGE;
use second::fence::{cross, Fence, Place};
use std::os::unix::process::ExitStatusExt;
use std::process::{Command, ExitCode, Stdio};

const STOPPED: i32 = 11;

/// Comes back only if nothing stopped it.
pub fn cross_on_purpose(how: &[&str]) -> ExitCode {
    let known = ["heap", "before", "behind", "read", "write"];
    if how.iter().any(|word| !known.contains(word)) {
        eprintln!("{USAGE}");
        return ExitCode::FAILURE;
    }
    let said = |word| how.contains(&word);
    let behind = !said("before");
    let place = match behind {
        _ if said("heap") => Place::Heap,
        true => Place::Behind,
        false => Place::Before,
    };
    let mut fence = Fence::new();
    let mut area = fence.area(place, &[7; 850]);
    let byte = cross(&mut area, behind, said("write"));
    println!("a byte outside was touched: {byte}");
    ExitCode::SUCCESS
}

/// This program, started anew to cross a fence each way, is stopped.
pub fn fences_stop() -> bool {
    let Ok(program) = std::env::current_exe() else {
        eprintln!("the path of this program is not known");
        return false;
    };
    let runner = std::env::var("NILOFERQ_RUNNER").unwrap_or_default();
    let mut stopped = 0;
    for side in ["before", "behind"] {
        for act in ["read", "write"] {
            let mut words = runner.split(' ').filter(|word| !word.is_empty());
            let mut command = match words.next() {
                None => Command::new(&program),
                Some(first) => Command::new(first),
            };
            if !runner.is_empty() {
                command.args(words).arg(&program);
            }
            command.args(["cross", side, act]);
            let quiet = command.stdout(Stdio::null()).stderr(Stdio::null());
            match quiet.status().map(|status| status.signal()) {
                Ok(Some(STOPPED)) => stopped += 1,
                other => eprintln!("{act} {side} a fenced area was not stopped: {other:?}"),
            }
        }
    }
    println!("fences: {stopped} of 4 ways to cross them on purpose were stopped");
    stopped == 4
}
