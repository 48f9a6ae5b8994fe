//! Reading: returns into rooms, and what was read written again.

use crate::run::{every_length, exact_and_drawn, Tally, GUARD, LONGER};
use second::case::Case;
use second::drive::{first_of, memory_difference, run, Arguments, Outcome, Plan};
use second::ffi::rows::{first_read, first_write};
use second::inputs;
use second::judge::{judge, Counts, Verdict};
use second::kinds::{COUNTS_ROOM, KINDS, ROWS_ROOM};
use second::lent::{Lent, Placed};
use second::make::Rows;
use second::reader::{ends, read};
use second::rng::Rng;

pub fn compare(arguments: Arguments) -> bool {
    let plan = Plan {
        name: "read",
        inputs: inputs::least(),
        least: inputs::least(),
        often: &[0, 1, 2, 3, 4, 5, 6, 7, 9, 12, 13, 14],
        counted: &[(13, 2_000), (14, 2_000)],
        sorts: 100,
        balances: 1_000,
        uneven: 100,
        retired: 100,
        crops: 5_000,
        crossed: 100,
    };
    let mut tally = Tally::new(9);
    let ran = run(&plan, arguments, inputs::with_figures, |case, rng| {
        try_one(case, rng, &mut tally)
    });
    let good = ran.with(&tally.coverage).good();
    good & every_length("read", arguments.seed, every_room)
}

/// Elements lent for the rows and for their numbers.
#[derive(Clone, Copy, Debug)]
struct Rooms {
    rows: usize,
    counts: usize,
}

/// Memory for reading, longer than any room that is lent of it.
#[derive(Clone)]
pub struct Memory {
    pub rows: Vec<u32>,
    pub counts: Vec<u32>,
}

impl Memory {
    pub fn random(rng: &mut Rng) -> Self {
        let mut words = |most: usize| {
            let length = most + LONGER + GUARD;
            (0..length).map(|_| rng.word()).collect()
        };
        Memory {
            rows: words(ROWS_ROOM),
            counts: words(COUNTS_ROOM),
        }
    }

    fn second(&mut self, bytes: &[u8], lent: Rooms) -> u32 {
        let rows = &mut self.rows[..lent.rows];
        read(bytes, rows, &mut self.counts[..lent.counts])
    }

    /// The first program's answer, lent so many elements of each.
    pub fn first(&mut self, bytes: &[u8], rows: usize, counts: usize) -> u32 {
        let rows = Lent::front(&mut self.rows, rows);
        first_read(bytes, rows, Lent::front(&mut self.counts, counts))
    }

    pub fn difference(&self, due: &Memory) -> Option<String> {
        first_of([
            memory_difference("rows", &self.rows, &due.rows),
            memory_difference("counts", &self.counts, &due.counts),
        ])
    }
}

/// A call of both programs: the answer due, the first one's memory, and where
/// it or its answer differs.
fn call(before: &Memory, bytes: &[u8], lent: Rooms) -> (u32, Memory, Option<String>) {
    let mut due = before.clone();
    let expected = due.second(bytes, lent);
    let mut memory = before.clone();
    let answer = memory.first(bytes, lent.rows, lent.counts);
    let wrong = format!("first program {answer}, second program {expected}");
    let found = first_of([
        (answer != expected).then_some(wrong),
        memory.difference(&due),
    ]);
    let found = found.map(|text| format!("{text}; {lent:?}"));
    (expected, memory, found)
}

fn try_one(case: &Case, rng: &mut Rng, tally: &mut Tally) -> Outcome {
    let before = Memory::random(rng);
    let placed = Placed::new(&case.bytes, rng);
    let bytes = placed.bytes();
    let accepted = match judge(bytes) {
        Verdict::Accepted(counts) => Some(counts),
        Verdict::Refused(_) => None,
    };
    let rooms = match &accepted {
        Some(counts) => rooms_for(&ends(&counts.rows), rng),
        None => vec![any_rooms(rng)],
    };
    let drawn = rng.below(rooms.len());
    let mut answer = 0;
    let mut difference = None;
    for (turn, lent) in rooms.into_iter().enumerate() {
        let (expected, memory, found) = call(&before, bytes, lent);
        // What is refused by 12, 13 or 14 has the parameters and a row more, of stock the shortest.
        let rows = KINDS[1].numbers + KINDS[3].numbers;
        tally.note(expected, lent.counts < COUNTS_ROOM || lent.rows < rows);
        if turn == drawn {
            answer = expected;
        }
        let input = memory_difference("the input itself", bytes, &case.bytes);
        difference = first_of([difference, found, input]);
        if let (0, Some(counts), None) = (turn, &accepted, &difference) {
            tally.note_round_trip();
            difference = written_again(&memory.rows[..lent.rows], counts, bytes);
        }
    }
    Outcome { answer, difference }
}

/// For bytes that are refused: long enough for any return, none, or any.
fn any_rooms(rng: &mut Rng) -> Rooms {
    let any = Rooms {
        rows: rng.below(ROWS_ROOM + LONGER + 1),
        counts: rng.below(COUNTS_ROOM + LONGER + 1),
    };
    let full = Rooms {
        rows: ROWS_ROOM,
        counts: COUNTS_ROOM,
    };
    rng.pick(&[any, full, Rooms { rows: 0, counts: 0 }])
}

/// Of a good return exact rooms first, then some drawn: longer ones, each that
/// ends with a kind's rows or one before, any shorter ones, and counts too few.
fn rooms_for(ends: &[usize; KINDS.len()], rng: &mut Rng) -> Vec<Rooms> {
    let exact = Rooms {
        rows: ends[KINDS.len() - 1],
        counts: COUNTS_ROOM,
    };
    let longer = Rooms {
        rows: exact.rows + 1 + rng.below(LONGER),
        counts: exact.counts + 1 + rng.below(LONGER),
    };
    let shorter = rng.below(exact.rows);
    let too_few = rng.below(exact.counts);
    let mut others = vec![
        longer,
        any_rooms(rng),
        Rooms {
            counts: too_few,
            ..exact
        },
        Rooms {
            rows: shorter,
            counts: too_few,
        },
        Rooms {
            rows: shorter,
            ..longer
        },
    ];
    for end in ends.iter().filter(|&&end| end > 0) {
        for rows in [end - 1, *end] {
            // The counts' room exact or longer.
            let counts = rng.pick(&[exact.counts, longer.counts]);
            others.push(Rooms { rows, counts });
        }
    }
    exact_and_drawn(exact, &others, rng)
}

/// One return into every room from none to longer than it needs, with every
/// number of counts, short ones too.
fn every_room(rows: &Rows, rng: &mut Rng) -> Result<usize, String> {
    let (bytes, before) = (rows.to_bytes(), Memory::random(rng));
    let needed = rows.lists().concat().len();
    let mut calls = 0;
    for counts in 0..COUNTS_ROOM + 2 {
        for rows in 0..needed + 3 {
            let (.., found) = call(&before, &bytes, Rooms { rows, counts });
            calls += 1;
            found.map_or(Ok(()), Err)?;
        }
    }
    Ok(calls)
}

/// Read then written by the first program in the same edition: the same bytes.
fn written_again(rows: &[u32], counts: &Counts, bytes: &[u8]) -> Option<String> {
    let lengths = KINDS.iter().zip(&counts.rows);
    let lengths: Vec<u32> = lengths
        .map(|(kind, &count)| kind.numbers as u32 * count)
        .collect();
    let mut room = vec![0xA5; bytes.len() + GUARD];
    let mut size = [7];
    let lent = Lent::front(&mut room, bytes.len());
    let edition = u32::from(counts.edition);
    let answer = first_write(edition, rows, &lengths, lent, Lent::whole(&mut size));
    let (blocks, guard) = room.split_at(bytes.len());
    let difference = first_of([
        (answer != 0).then(|| format!("answer {answer}")),
        memory_difference("size", &size, &[bytes.len() as u32]),
        memory_difference("the blocks", blocks, bytes),
        memory_difference("the guard", guard, &[0xA5; GUARD]),
    ]);
    difference.map(|text| format!("read then written: {text}"))
}
