//! Writing: rows into rooms, and what was written read again.

use crate::reading::Memory;
use crate::run::{every_length, exact_and_drawn, Tally, GUARD, LONGER};
use second::drive::{first_of, memory_difference, run, Arguments, Outcome, Plan};
use second::ffi::rows::first_write;
use second::kinds::{COUNTS_ROOM, KINDS, RETURN_ROOM};
use second::lent::Lent;
use second::lists::{rows_in, RowLists};
use second::make::{Rows, TREES, UNIT_CODE};
use second::rng::Rng;
use second::row_sweeps;
use second::rowlists;

/// One input in this many comes from the sweeps.
const SWEEP_EVERY: usize = 4;
const LEAST_INPUTS: usize = 200_000;
const BLOCK: usize = 512;
const MOST_SIZES: usize = 3;

pub fn compare(arguments: Arguments) -> bool {
    let least = LEAST_INPUTS.max(SWEEP_EVERY * row_sweeps::size());
    let plan = Plan {
        name: "write",
        inputs: least,
        least,
        often: &[0, 5, 6, 7, 9, 10, 12, 13, 14],
        counted: &[(13, 2_000), (14, 2_000)],
        sorts: 100,
        balances: 1_000,
        uneven: 100,
        retired: 100,
        crops: 5_000,
        crossed: 100,
    };
    let make = |index: usize, rng: &mut Rng| {
        let turn = index / SWEEP_EVERY;
        if index.is_multiple_of(SWEEP_EVERY) && turn < row_sweeps::size() {
            row_sweeps::case(turn, rng)
        } else {
            rowlists::case(rng)
        }
    };
    let mut tally = Tally::new(10);
    let ran = run(&plan, arguments, make, |lists, rng| {
        try_one(lists, rng, &mut tally)
    });
    let good = ran.with(&tally.coverage).good();
    good & every_length("write", arguments.seed, every_room)
}

/// Elements lent for the blocks and for their size.
#[derive(Clone, Copy, Debug)]
struct Rooms {
    blocks: usize,
    sizes: usize,
}

/// Memory for writing, longer than any room that is lent of it.
#[derive(Clone)]
struct Paper {
    blocks: Vec<u8>,
    sizes: [u32; MOST_SIZES + GUARD],
}

impl Paper {
    fn random(rng: &mut Rng) -> Self {
        let mut blocks = vec![0; RETURN_ROOM + LONGER + GUARD];
        rng.fill(&mut blocks);
        Paper {
            blocks,
            sizes: std::array::from_fn(|_| rng.word()),
        }
    }
}

/// A call of both programs: the answer due, the first one's memory, and where
/// it or its answer differs.
fn call(before: &Paper, lists: &RowLists, lent: Rooms) -> (u32, Paper, Option<String>) {
    let mut due = before.clone();
    let room = &mut due.blocks[..lent.blocks];
    let expected = lists.write(room, &mut due.sizes[..lent.sizes]);
    // Copied, so that their end is the allocation's end.
    let (rows, lengths) = (lists.rows.clone(), lists.lengths.clone());
    let mut paper = before.clone();
    let answer = first_write(
        lists.edition,
        &rows,
        &lengths,
        Lent::front(&mut paper.blocks, lent.blocks),
        Lent::front(&mut paper.sizes, lent.sizes),
    );
    let wrong = format!("first program {answer}, second program {expected}");
    let found = first_of([
        (answer != expected).then_some(wrong),
        memory_difference("the room", &paper.blocks, &due.blocks),
        memory_difference("the size", &paper.sizes, &due.sizes),
        memory_difference("the rows themselves", &rows, &lists.rows),
        memory_difference("the lengths themselves", &lengths, &lists.lengths),
    ]);
    let found = found.map(|text| format!("{text}; {lent:?}"));
    (expected, paper, found)
}

fn try_one(lists: &RowLists, rng: &mut Rng, tally: &mut Tally) -> Outcome {
    let before = Paper::random(rng);
    let accepted = bytes_of(lists);
    let rooms = rooms_for(accepted, rng);
    let drawn = rng.below(rooms.len());
    let mut answer = 0;
    let mut difference = None;
    for (turn, lent) in rooms.into_iter().enumerate() {
        let (expected, paper, found) = call(&before, lists, lent);
        // What is refused by 12, 13 or 14 has the parameters and a row more.
        tally.note(expected, lent.blocks < 2 * BLOCK || lent.sizes == 0);
        if turn == drawn {
            answer = expected;
        }
        difference = difference.or(found);
        if let (0, Some(bytes), None) = (turn, accepted, &difference) {
            tally.note_round_trip();
            difference = read_again(&paper.blocks[..bytes], lists, rng);
        }
    }
    Outcome { answer, difference }
}

/// The bytes that these rows take, if they are good.
fn bytes_of(lists: &RowLists) -> Option<usize> {
    let mut size = [0];
    let answer = lists.write(&mut [0; RETURN_ROOM], &mut size);
    (answer == 0).then_some(size[0] as usize)
}

/// For good rows exact rooms first, then some drawn; for others one.
fn rooms_for(accepted: Option<usize>, rng: &mut Rng) -> Vec<Rooms> {
    let rooms = |(blocks, sizes)| Rooms { blocks, sizes };
    let bytes = accepted.unwrap_or_else(|| BLOCK * rng.below(RETURN_ROOM / BLOCK + 1));
    let longer = bytes + 1 + rng.below(LONGER);
    let any = rng.below(RETURN_ROOM + LONGER + 1);
    let mut others = vec![
        (longer, 1 + rng.below(MOST_SIZES)),
        (bytes.saturating_sub(1), 1),
        (any, rng.below(MOST_SIZES + 1)),
    ];
    if accepted.is_none() {
        others.push((bytes, 1));
        return vec![rooms(rng.pick(&others))];
    }
    others.extend([(bytes, 0), (bytes - BLOCK, 2), (0, 0), (longer, 2)]);
    let lengths = exact_and_drawn((bytes, 1), &others, rng);
    lengths.into_iter().map(rooms).collect()
}

/// The same rows into every room from none to longer than they need, with every
/// number of sizes.
fn every_room(rows: &Rows, rng: &mut Rng) -> Result<usize, String> {
    let lists = RowLists::of(String::new(), rows);
    let before = Paper::random(rng);
    let needed = bytes_of(&lists).ok_or("good rows were refused")?;
    let mut calls = 0;
    for sizes in 0..MOST_SIZES {
        for blocks in 0..needed + 3 {
            let (.., found) = call(&before, &lists, Rooms { blocks, sizes });
            calls += 1;
            found.map_or(Ok(()), Err)?;
        }
    }
    Ok(calls)
}

/// Written then read by the first program: the same edition and rows, and the rows of trees
/// counted.
fn read_again(bytes: &[u8], lists: &RowLists, rng: &mut Rng) -> Option<String> {
    let before = Memory::random(rng);
    let mut due = before.clone();
    due.rows[..lists.rows.len()].copy_from_slice(&lists.rows);
    due.counts[0] = lists.edition;
    for (at, kind) in KINDS.iter().enumerate() {
        due.counts[at + 1] = lists.lengths[at] / kind.numbers as u32;
    }
    let stock = lists.lists();
    let trees = rows_in::<5>(&stock, 2).iter();
    due.counts[COUNTS_ROOM - 1] = trees.filter(|row| row[UNIT_CODE] == TREES).count() as u32;
    let mut memory = before;
    let answer = memory.first(bytes, lists.rows.len(), COUNTS_ROOM);
    let difference = first_of([
        (answer != 0).then(|| format!("answer {answer}")),
        memory.difference(&due),
    ]);
    difference.map(|text| format!("written then read: {text}"))
}
