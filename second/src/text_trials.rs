//! Texts packed and returns unpacked by the first program, held against the second: the
//! trials of `compare_texts`, with the first program's functions lent to them, so that the
//! tests can lend others.

mod calls;
mod tally;

use crate::drive::{first_of, Arguments};
use crate::inputs;
use crate::judge::judge;
use crate::kinds::RETURN_ROOM;
use crate::lent::Lent;
use crate::pack::{self, pack, pack_why};
use crate::rng::Rng;
use crate::texts::{self, TextCase};
use crate::typed::typed;
use crate::unpack::{self, unpack};
use calls::{ask_pack, ask_unpack, ask_why, Due};
use std::time::Instant;
use tally::Tally;

/// Texts of a run whose number wasn't named.
const TEXTS: usize = 200_000;
/// One text in this many comes with a return from the other makers.
const RETURN_EVERY: usize = 4;
const SHOWN: usize = 5;
/// Bytes of a text that are shown with a difference; all of it goes into a file.
const SHOWN_BYTES: usize = 1_500;

/// A function that puts bytes into a room and their number into a size, and one that puts a
/// text into a room.
pub type Put = fn(&[u8], Lent<u8>, Lent<u32>) -> u32;
pub type Tell = fn(&[u8], Lent<u8>) -> usize;

/// The first program's functions.
#[derive(Clone, Copy)]
pub struct Door {
    pub pack: Put,
    pub why: Tell,
    pub unpack: Put,
}

impl Door {
    /// The second program in the first one's place.
    pub fn stand_in() -> Self {
        Door {
            pack: |text, room, size| pack(text, room.room(), size.room()),
            why: |text, room| pack_why(text, room.room()),
            unpack: |bytes, room, size| unpack(bytes, room.room(), size.room()),
        }
    }
}

/// Goes over the texts, counts what came and shows what differs; whether all is well.
pub fn run(door: Door, arguments: Arguments) -> bool {
    let (mut tally, mut made, mut differences) = (Tally::new(), 0, 0);
    let start = Instant::now();
    for index in 0..arguments.inputs.unwrap_or(TEXTS) {
        if arguments.over(start) {
            break;
        }
        made += 1;
        if let Some(difference) = try_nth(door, (arguments.seed, index), &mut tally) {
            differences += 1;
            if differences <= SHOWN {
                let mut rng = Rng::for_input(arguments.seed, index as u64);
                let case = texts::case(&mut rng);
                show((arguments.seed, index), &case, &difference);
            }
        }
    }
    tally.coverage.print(made);
    println!("compare texts: {made} inputs, {differences} differences");
    let usual = arguments.inputs.is_none();
    differences == 0 && tally.reached(made, usual)
}

fn try_nth(door: Door, (seed, index): (u64, usize), tally: &mut Tally) -> Option<String> {
    let mut rng = Rng::for_input(seed, index as u64);
    let case = texts::case(&mut rng);
    let found = try_text(door, &case, &mut rng, tally);
    if found.is_none() && index.is_multiple_of(RETURN_EVERY) {
        return try_return(door, &mut rng, tally);
    }
    found
}

fn show((seed, index): (u64, usize), case: &TextCase, difference: &str) {
    println!("difference at text {index} of seed {seed}: {}", case.how);
    println!("  {difference}");
    let front = &case.bytes[..case.bytes.len().min(SHOWN_BYTES)];
    let front = front.escape_ascii().to_string().replace("\\n", "\\n\n");
    println!("the text, {} bytes:\n{front}", case.bytes.len());
    let path = std::env::temp_dir().join(format!("niloferq-texts-{seed}-{index}.csv"));
    match std::fs::write(&path, &case.bytes) {
        Ok(()) => println!("  the text in {}", path.display()),
        Err(error) => println!("  the text not written: {error}"),
    }
}

/// A text packed, its reason, and, where it packs, its return unpacked and packed again.
fn try_text(door: Door, case: &TextCase, rng: &mut Rng, tally: &mut Tally) -> Option<String> {
    let (mut room, mut size) = ([0; RETURN_ROOM], [0]);
    let read = typed(&case.bytes);
    let answer = match &read {
        Ok(typed) => typed.write(&mut room, &mut size),
        Err(fault) => fault.sort.number(),
    };
    let due = match answer {
        0 => Due::Bytes(&room[..size[0] as usize]),
        _ => Due::Refused(answer),
    };
    tally.note_text(case, &read, answer);
    let why = pack::why(&case.bytes);
    let found = first_of([
        ask_pack(door.pack, &case.bytes, due, rng, tally),
        ask_why(door.why, &case.bytes, why.as_bytes(), rng, tally),
    ]);
    match (found, due) {
        (None, Due::Bytes(bytes)) => there_and_back(door, bytes, rng, tally),
        (found, _) => found,
    }
}

/// A return unpacked, and its text packed again.
fn there_and_back(door: Door, bytes: &[u8], rng: &mut Rng, tally: &mut Tally) -> Option<String> {
    let text = unpack::text(bytes).expect("a return that was written");
    let found = ask_unpack(door.unpack, bytes, Due::Bytes(text.as_bytes()), rng, tally);
    found.or_else(|| {
        tally.note_round_trip();
        let due = Due::Bytes(bytes);
        let found = calls::exact(door.pack, text.as_bytes(), due, rng);
        found.map(|found| format!("unpacked then packed: {found}\n{text}"))
    })
}

/// A return from the other comparisons' makers, accepted or not.
fn try_return(door: Door, rng: &mut Rng, tally: &mut Tally) -> Option<String> {
    let case = inputs::drawn_explained(rng);
    let answer = judge(&case.bytes).answer();
    tally.note_return(answer);
    let found = match answer {
        0 => there_and_back(door, &case.bytes, rng, tally),
        _ => ask_unpack(door.unpack, &case.bytes, Due::Refused(answer), rng, tally),
    };
    found.map(|found| format!("a return, {}: {found}", case.how))
}

#[cfg(test)]
#[path = "text_trials_tests.rs"]
mod tests;
