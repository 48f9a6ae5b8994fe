//! Packing and unpacking with every area fenced.

use crate::calls::{found, text_at, Fences, FirstText, Found, Text};
use crate::rooms::{any_bytes, words, Fit};
use second::drive::memory_difference;
use second::fence::Place;
use second::ffi::texts::{first_pack, first_pack_why, first_unpack};
use second::kinds::RETURN_ROOM;
use second::lent::Lent;
use second::make::MOST_BLOCKS;
use second::pack::{pack, pack_why, why};
use second::rng::Rng;
use second::typed::typed;
use second::unpack::{self, unpack};

/// What stands in the rooms before a call: a return and its size, a reason, and a text and
/// its size.
pub struct TextRooms {
    packed: (Vec<u8>, Vec<u32>),
    reason: Vec<u8>,
    unpacked: (Vec<u8>, Vec<u32>),
}

impl TextRooms {
    pub fn drawn(text: &[u8], bytes: &[u8], fit: Fit, rng: &mut Rng) -> Self {
        let mut size = [0];
        let packed = match pack(text, &mut [0; RETURN_ROOM], &mut size) {
            0 => size[0] as usize,
            _ => 512 * rng.below(MOST_BLOCKS + 1),
        };
        let unpacked = unpack::text(bytes).map_or(rng.below(3_000), |text| text.len());
        TextRooms {
            packed: with_size(packed, fit, rng),
            reason: any_bytes(fit.length(why(text).as_bytes().len(), rng), rng),
            unpacked: with_size(unpacked, fit, rng),
        }
    }
}

/// A room for so many bytes and one for their number, one of the two short.
fn with_size(needed: usize, fit: Fit, rng: &mut Rng) -> (Vec<u8>, Vec<u32>) {
    let (room, size) = match fit {
        Fit::Exact => (needed, 1),
        Fit::Short if rng.one_in(2) => (needed, 0),
        Fit::Short => (fit.length(needed, rng), 1),
        Fit::Longer => (fit.length(needed, rng), 2 + rng.below(3)),
    };
    (any_bytes(room, rng), words(size, rng))
}

/// The fault of a text, 1 to 10, if it has one.
pub fn fault_of(text: &[u8]) -> Option<usize> {
    let fault = typed(text).err()?;
    Some(fault.sort.number() as usize)
}

/// The three calls, as `pack`, `pack_why` and `unpack`.
pub fn texts_at(
    fences: &mut Fences,
    place: Place,
    (text, bytes): (&[u8], &[u8]),
    lent: &TextRooms,
) -> [Found; 3] {
    let texts = (pack_why as Text, first_pack_why as FirstText);
    [
        pack_at(fences, place, text, &lent.packed),
        text_at(fences, place, (text, &lent.reason), texts, number_of),
        unpack_at(fences, place, bytes, &lent.unpacked),
    ]
}

/// A fault of the text counts as number 1, which writing doesn't have.
fn number_of(text: &[u8]) -> u32 {
    match pack(text, &mut [0; RETURN_ROOM], &mut [0]) {
        1..1000 => 1,
        answer => answer / 1000,
    }
}

fn pack_at(fences: &mut Fences, place: Place, text: &[u8], before: &(Vec<u8>, Vec<u32>)) -> Found {
    let (number, difference) = put_at(fences, place, (text, before), pack, first_pack);
    match fault_of(text) {
        Some(_) => (1, difference),
        None => (number, difference),
    }
}

fn unpack_at(
    fences: &mut Fences,
    place: Place,
    bytes: &[u8],
    before: &(Vec<u8>, Vec<u32>),
) -> Found {
    put_at(fences, place, (bytes, before), unpack, first_unpack)
}

/// Functions that put bytes into a room and their number into a size.
type Put = fn(&[u8], &mut [u8], &mut [u32]) -> u32;
type FirstPut = fn(&[u8], Lent<u8>, Lent<u32>) -> u32;

fn put_at(
    fences: &mut Fences,
    place: Place,
    (bytes, (before, size_before)): (&[u8], &(Vec<u8>, Vec<u32>)),
    second: Put,
    first: FirstPut,
) -> Found {
    let (mut room_due, mut size_due) = (before.clone(), size_before.clone());
    let due = second(bytes, &mut room_due, &mut size_due);
    let [input, room, size, _] = fences;
    let input = input.area(place, bytes);
    let mut room = room.area(place, before);
    let mut size = size.area(place, size_before);
    let answer = first(&input, Lent::whole(&mut room), Lent::whole(&mut size));
    let memory = [
        memory_difference("the input", &input, bytes),
        memory_difference("the room", &room, &room_due),
        memory_difference("the size", &size, &size_due),
    ];
    found(answer, due, memory)
}
