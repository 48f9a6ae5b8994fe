//! Compares packing a text of rows, the reason why one doesn't pack, and unpacking a return,
//! of the first program and of the second (rows as text), from C.
//!
//! `compare_texts [SEED [TEXTS [SECONDS]]]`. Every text is packed into a room of the return's
//! length and into a longer one, and of those that pack every other into one that is short
//! or without a size; its reason is asked for with a room of its length and with another. A
//! return is unpacked in the same rooms, and its text packed again. One text in four comes
//! with a return from the other comparisons' makers. Each fault, each way to come by it,
//! each number of writing and each separator is counted, and enough are due.
//!
//! With the feature `stand_in` the second program stands in the first one's place: that
//! tries this program, and no library.

#[cfg(all(door_missing, not(feature = "stand_in")))]
compile_error!(
    "libdoor.a of the first program is missing: build it, or name its folder in NILOFERQ_LIB"
);

#[cfg(any(not(door_missing), feature = "stand_in"))]
mod run {
    use second::drive::{exit, Arguments};
    use second::text_trials::{run, Door};
    use std::process::ExitCode;

    #[cfg(not(feature = "stand_in"))]
    fn door() -> Door {
        use second::ffi::texts::{first_pack, first_pack_why, first_unpack};
        Door {
            pack: first_pack,
            why: first_pack_why,
            unpack: first_unpack,
        }
    }

    #[cfg(feature = "stand_in")]
    fn door() -> Door {
        eprintln!("compare_texts: the second program stands in the first one's place");
        Door::stand_in()
    }

    pub fn main() -> ExitCode {
        match Arguments::from_command("compare_texts") {
            Some(arguments) => exit(run(door(), arguments)),
            None => ExitCode::FAILURE,
        }
    }
}

#[cfg(any(not(door_missing), feature = "stand_in"))]
fn main() -> std::process::ExitCode {
    run::main()
}

#[cfg(not(any(not(door_missing), feature = "stand_in")))]
fn main() {}
