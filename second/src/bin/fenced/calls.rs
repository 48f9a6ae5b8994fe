//! A call of each function with every area fenced, held against the second
//! program's answer and memory.

use second::doubles::subtotal;
use second::drive::{first_of, memory_difference};
use second::explain::explain;
use second::fence::{Fence, Number, Place};
use second::ffi::doubles::first_subtotal;
use second::ffi::explain::{first_explain, first_heaviest};
use second::ffi::judge::first_judge;
use second::ffi::lines::{first_figures, first_lines};
use second::ffi::nation::first_nation;
use second::ffi::rows::{first_read, first_write};
use second::ffi::tables::{first_defaults, first_table52};
use second::heaviest::heaviest;
use second::judge::{judge, Verdict};
use second::lent::Lent;
use second::lists::RowLists;
use second::nation::{nation, Nation, Stop};
use second::reader::{count, read};
use second::sheets::{figures, lines};
use second::table52::{defaults, Table};
use std::fmt::Debug;

/// The most areas that one function is lent.
const AREAS: usize = 4;

pub type Fences = [Fence; AREAS];
/// The number due, and what differs.
pub type Found = (u32, Option<String>);

pub fn found(answer: u32, due: u32, memory: impl IntoIterator<Item = Option<String>>) -> Found {
    let wrong = format!("first program {answer}, second program {due}");
    let wrong = (answer != due).then_some(wrong);
    (due / 1000, first_of([wrong].into_iter().chain(memory)))
}

/// A call with an input and a room: what the second program does with them, and the first.
fn with_room<T: Number + PartialEq + Debug>(
    fences: &mut Fences,
    place: Place,
    (bytes, before): (&[u8], &[T]),
    second: impl FnOnce(&[u8], &mut [T]) -> u32,
    first: impl FnOnce(&[u8], Lent<T>) -> u32,
) -> Found {
    let mut room_due = before.to_vec();
    let due = second(bytes, &mut room_due);
    let [input, room, ..] = fences;
    let input = input.area(place, bytes);
    let mut room = room.area(place, before);
    let answer = first(&input, Lent::whole(&mut room));
    let memory = [
        memory_difference("the input", &input, bytes),
        memory_difference("the room", &room, &room_due),
    ];
    found(answer, due, memory)
}

pub fn judge_at(fences: &mut Fences, place: Place, bytes: &[u8], before: &[u32]) -> Found {
    with_room(fences, place, (bytes, before), count, first_judge)
}

pub fn figures_at(fences: &mut Fences, place: Place, bytes: &[u8], before: &[u64]) -> Found {
    with_room(fences, place, (bytes, before), figures, first_figures)
}

pub fn heaviest_at(
    fences: &mut Fences,
    place: Place,
    bytes: &[u8],
    (code, before): (u32, &[u64]),
) -> Found {
    let second = |bytes: &[u8], room: &mut [u64]| heaviest(bytes, code, room);
    let first = |bytes: &[u8], room: Lent<u64>| first_heaviest(bytes, code, room);
    with_room(fences, place, (bytes, before), second, first)
}

pub fn subtotal_at(
    fences: &mut Fences,
    place: Place,
    bytes: &[u8],
    (code, before): (u32, &[u8]),
) -> Found {
    let second = |bytes: &[u8], room: &mut [u8]| subtotal(bytes, code, room);
    let first = |bytes: &[u8], room: Lent<u8>| first_subtotal(bytes, code, room);
    with_room(fences, place, (bytes, before), second, first)
}

pub fn lines_at(fences: &mut Fences, place: Place, bytes: &[u8], before: &[u8]) -> Found {
    let texts = (lines as Text, first_lines as FirstText);
    text_at(fences, place, (bytes, before), texts, number_of)
}

pub fn explain_at(fences: &mut Fences, place: Place, bytes: &[u8], before: &[u8]) -> Found {
    let texts = (explain as Text, first_explain as FirstText);
    text_at(fences, place, (bytes, before), texts, number_of)
}

fn number_of(bytes: &[u8]) -> u32 {
    match judge(bytes) {
        Verdict::Refused(refusal) => refusal.number,
        Verdict::Accepted(_) => 0,
    }
}

/// A file of returns. Stops have no number: 1 is for blocks, 2 for short, 3 for many.
pub fn nation_at(fences: &mut Fences, place: Place, file: &[u8], before: &[u8]) -> Found {
    let number = |file: &[u8]| match Nation::of(file).stopped {
        None => 0,
        Some((_, Stop::Blocks(_))) => 1,
        Some((_, Stop::Short)) => 2,
        Some((_, Stop::Many)) => 3,
    };
    let texts = (nation as Text, first_nation as FirstText);
    text_at(fences, place, (file, before), texts, number)
}

/// Functions that put a text into a room: of the second program, and of the first.
pub type Text = fn(&[u8], &mut [u8]) -> usize;
pub type FirstText = fn(&[u8], Lent<u8>) -> usize;

/// A text of both programs. A room that is too short counts as number 9.
pub fn text_at(
    fences: &mut Fences,
    place: Place,
    (bytes, before): (&[u8], &[u8]),
    (second, first): (Text, FirstText),
    number: impl FnOnce(&[u8]) -> u32,
) -> Found {
    let mut room_due = before.to_vec();
    let due = second(bytes, &mut room_due);
    let [input, room, ..] = fences;
    let input = input.area(place, bytes);
    let mut room = room.area(place, before);
    let answer = first(&input, Lent::whole(&mut room));
    let wrong = format!("first program {answer}, second program {due}");
    let difference = first_of([
        (answer != due).then_some(wrong),
        memory_difference("the input", &input, bytes),
        memory_difference("the room", &room, &room_due),
    ]);
    (if due == 0 { 9 } else { number(bytes) }, difference)
}

pub fn read_at(
    fences: &mut Fences,
    place: Place,
    bytes: &[u8],
    (rows_before, counts_before): (&[u32], &[u32]),
) -> Found {
    let (mut rows_due, mut counts_due) = (rows_before.to_vec(), counts_before.to_vec());
    let due = read(bytes, &mut rows_due, &mut counts_due);
    let [input, rows, counts, _] = fences;
    let input = input.area(place, bytes);
    let mut rows = rows.area(place, rows_before);
    let mut counts = counts.area(place, counts_before);
    let answer = first_read(&input, Lent::whole(&mut rows), Lent::whole(&mut counts));
    let memory = [
        memory_difference("the input", &input, bytes),
        memory_difference("the rows", &rows, &rows_due),
        memory_difference("the counts", &counts, &counts_due),
    ];
    found(answer, due, memory)
}

pub fn write_at(
    fences: &mut Fences,
    place: Place,
    lists: &RowLists,
    (before, size_before): (&[u8], &[u32]),
) -> Found {
    let (mut room_due, mut size_due) = (before.to_vec(), size_before.to_vec());
    let due = lists.write(&mut room_due, &mut size_due);
    let [rows, lengths, room, size] = fences;
    let rows = rows.area(place, &lists.rows);
    let lengths = lengths.area(place, &lists.lengths);
    let mut room = room.area(place, before);
    let mut size = size.area(place, size_before);
    let answer = first_write(
        lists.edition,
        &rows,
        &lengths,
        Lent::whole(&mut room),
        Lent::whole(&mut size),
    );
    let memory = [
        memory_difference("the blocks", &room, &room_due),
        memory_difference("the size", &size, &size_due),
        memory_difference("the rows", &rows, &lists.rows),
        memory_difference("the lengths", &lengths, &lists.lengths),
    ];
    found(answer, due, memory)
}

/// An entry of table 5-2. The answers 1 and 2 have no refusal number, and are themselves.
pub fn table52_at(
    fences: &mut Fences,
    place: Place,
    table: &Table,
    (country, zone, before): (u32, u32, &[i32]),
) -> Found {
    let mut room_due = before.to_vec();
    let due = table.look_up(country, zone, &mut room_due);
    let mut room = fences[0].area(place, before);
    let answer = first_table52(country, zone, Lent::whole(&mut room));
    let (number, difference) = found(
        answer,
        due,
        [memory_difference("the room", &room, &room_due)],
    );
    (if due < 1000 { due } else { number }, difference)
}

pub fn defaults_at(fences: &mut Fences, place: Place, before: &[u32]) -> Found {
    let mut room_due = before.to_vec();
    let due = defaults(&mut room_due);
    let mut room = fences[0].area(place, before);
    let answer = first_defaults(Lent::whole(&mut room));
    found(
        answer,
        due,
        [memory_difference("the room", &room, &room_due)],
    )
}
