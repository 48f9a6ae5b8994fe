//! Single calls of the first program: rooms that fit, that are longer and that are short, with
//! all of our memory looked at afterwards.

use super::tally::{Tally, REASON_ROOMS, ROOMS};
use super::{Put, Tell};
use crate::drive::{first_of, memory_difference};
use crate::lent::{Lent, Placed};
use crate::rng::Rng;

const GUARD: usize = 24;
const LONGER: usize = 300;
const MOST_SIZES: usize = 3;

/// What is due of a text or a return, with room for it.
#[derive(Clone, Copy)]
pub enum Due<'a> {
    Bytes(&'a [u8]),
    Refused(u32),
}

/// The lengths of a room and of a size for so many bytes, in the order of [`ROOMS`].
fn rooms(nth: usize, bytes: usize, rng: &mut Rng) -> (usize, usize) {
    let sizes = 1 + rng.below(MOST_SIZES);
    match nth {
        0 => (bytes, 1),
        1 => (bytes + 1 + rng.below(LONGER), sizes),
        2 => (bytes - 1, sizes),
        3 => (bytes + rng.below(LONGER), 0),
        _ => (rng.below(bytes), rng.below(MOST_SIZES + 1)),
    }
}

pub fn ask_pack(
    put: Put,
    text: &[u8],
    due: Due,
    rng: &mut Rng,
    tally: &mut Tally,
) -> Option<String> {
    let found = ask_put(put, text, due, rng, |nth| tally.note_pack(nth))?;
    Some(format!("packing: {found}"))
}

pub fn ask_unpack(
    put: Put,
    bytes: &[u8],
    due: Due,
    rng: &mut Rng,
    tally: &mut Tally,
) -> Option<String> {
    let found = ask_put(put, bytes, due, rng, |nth| tally.note_unpack(nth))?;
    Some(format!("unpacking: {found}"))
}

/// What is good with an exact room, a longer one and, of two, one that is short; what is
/// refused with any.
fn ask_put(
    put: Put,
    input: &[u8],
    due: Due,
    rng: &mut Rng,
    mut note: impl FnMut(usize),
) -> Option<String> {
    let Due::Bytes(bytes) = due else {
        let room = rng.pick(&[0, 0, 511, 512, 2_048, 11_264, 20_000]);
        let size = rng.below(MOST_SIZES + 1);
        return call(put, input, due, (room, size), rng);
    };
    let mut tried = vec![0, 1];
    if rng.one_in(2) {
        tried.push(2 + rng.below(ROOMS.len() - 2));
    }
    first_of(tried.into_iter().map(|nth| {
        note(nth);
        let lent = rooms(nth, bytes.len(), rng);
        call(put, input, due, lent, rng)
    }))
}

/// One call with an exact room.
pub fn exact(put: Put, input: &[u8], due: Due, rng: &mut Rng) -> Option<String> {
    let room = match due {
        Due::Bytes(bytes) => bytes.len(),
        Due::Refused(_) => 0,
    };
    call(put, input, due, (room, 1), rng)
}

fn call(
    put: Put,
    input: &[u8],
    due: Due,
    (lent, sizes): (usize, usize),
    rng: &mut Rng,
) -> Option<String> {
    let placed = Placed::new(input, rng);
    let mut room_before = vec![0; lent + GUARD];
    rng.fill(&mut room_before);
    let size_before: [u32; MOST_SIZES + GUARD] = std::array::from_fn(|_| rng.word());
    let (mut room_due, mut size_due) = (room_before.clone(), size_before);
    let expected = match due {
        Due::Refused(answer) => answer,
        Due::Bytes(bytes) if lent >= bytes.len() && sizes > 0 => {
            room_due[..bytes.len()].copy_from_slice(bytes);
            size_due[0] = bytes.len() as u32;
            0
        }
        Due::Bytes(_) => 9000,
    };
    let (mut room, mut size) = (room_before, size_before);
    let answer = put(
        placed.bytes(),
        Lent::front(&mut room, lent),
        Lent::front(&mut size, sizes),
    );
    let wrong = format!("first program {answer}, second program {expected}");
    let found = first_of([
        (answer != expected).then_some(wrong),
        memory_difference("the room", &room, &room_due),
        memory_difference("the size", &size, &size_due),
        memory_difference("the input itself", placed.bytes(), input),
    ])?;
    Some(format!("{found}; room of {lent}, {sizes} sizes"))
}

/// A reason with an exact room, and with another.
pub fn ask_why(
    tell: Tell,
    text: &[u8],
    due: &[u8],
    rng: &mut Rng,
    tally: &mut Tally,
) -> Option<String> {
    let other = 1 + rng.below(REASON_ROOMS.len() - 1);
    first_of([0, other].map(|nth| {
        tally.note_reason(nth);
        let lent = match nth {
            0 => due.len(),
            1 => due.len() - 1,
            2 => 0,
            _ => due.len() + 1 + rng.below(LONGER),
        };
        told(tell, text, due, lent, rng)
    }))
}

fn told(tell: Tell, text: &[u8], due: &[u8], lent: usize, rng: &mut Rng) -> Option<String> {
    let placed = Placed::new(text, rng);
    let mut before = vec![0; lent + GUARD];
    rng.fill(&mut before);
    let mut room_due = before.clone();
    let fits = lent >= due.len();
    if fits {
        room_due[..due.len()].copy_from_slice(due);
    }
    let expected = if fits { due.len() } else { 0 };
    let mut room = before;
    let answer = tell(placed.bytes(), Lent::front(&mut room, lent));
    let found = first_of([
        (answer != expected).then(|| format!("length {answer}, due {expected}")),
        memory_difference("the room", &room, &room_due),
        memory_difference("the text itself", placed.bytes(), text),
    ])?;
    let shown = |text: &[u8]| text.escape_ascii().to_string().replace("\\n", "\n");
    Some(format!(
        "the reason: {found}; room of {lent}\nfirst program:\n{}second program:\n{}",
        shown(&room[..answer.min(lent)]),
        shown(due)
    ))
}
