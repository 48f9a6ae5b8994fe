//! Reading and writing together.

use super::*;
use crate::inputs;
use crate::kinds::{RETURN_ROOM, ROWS_ROOM};
use crate::make::{Rows, LATER, MOST_ROWS};
use crate::rng::Rng;
use crate::writer::write;

/// Rooms of these lengths, filled with a pattern.
struct Memory {
    rows: Vec<u32>,
    counts: Vec<u32>,
}

const PATTERN: u32 = 0xDEAD_BEEF;

impl Memory {
    fn new(rows: usize, counts: usize) -> Self {
        Memory {
            rows: vec![PATTERN; rows],
            counts: vec![PATTERN; counts],
        }
    }

    fn read(&mut self, bytes: &[u8]) -> u32 {
        read(bytes, &mut self.rows, &mut self.counts)
    }

    fn untouched(&self) -> bool {
        let mut all = self.rows.iter().chain(&self.counts);
        all.all(|&element| element == PATTERN)
    }
}

/// Elements, from numbers of rows.
fn lengths(counts: [u32; KINDS.len()]) -> [u32; KINDS.len()] {
    std::array::from_fn(|kind| KINDS[kind].numbers as u32 * counts[kind])
}

/// "An accepted return, read and written again, is the same bytes."
#[test]
fn read_then_written_is_the_same() {
    let mut accepted = [0; 3];
    for index in 0..20_000 {
        let case = inputs::with_figures(index, &mut Rng::for_input(91, index as u64));
        let Ok(checked) = check(&case.bytes) else {
            continue;
        };
        let edition = checked.counts.edition;
        accepted[usize::from(edition) - 1] += 1;
        let lengths = lengths(checked.counts.rows);
        let mut memory = Memory::new(lengths.iter().sum::<u32>() as usize, COUNTS_ROOM);
        assert_eq!(memory.read(&case.bytes), 0);
        assert_eq!(memory.counts[0], u32::from(edition));
        assert_eq!(memory.counts[1..=KINDS.len()], checked.counts.rows);
        let trees = crate::lists::rows_of(&case.bytes);
        let trees = crate::lists::rows_in::<5>(&trees, 2).iter();
        let trees = trees.filter(|row| row[1] == 1).count();
        assert_eq!(memory.counts[KINDS.len() + 1], trees as u32);
        let mut room = vec![0xAA; case.bytes.len()];
        let mut size = [0];
        let Memory { rows, counts } = &memory;
        assert_eq!(write(counts[0], rows, &lengths, &mut room, &mut size), 0);
        assert!(room == case.bytes, "{}", case.how);
        assert_eq!(size[0] as usize, case.bytes.len());
    }
    assert!(accepted.iter().all(|&times| times > 2_000), "{accepted:?}");
}

/// Good rows written read back as those rows, and the maker, which has its own
/// tables, writes the same bytes.
#[test]
fn written_then_read_is_the_same() {
    let mut rng = Rng::new(92);
    for turn in 0..4 * (MOST_ROWS + 1) {
        let count = turn / 4;
        let counts = [[count, 0, 0], [0, count, 5], [31, 32, count], [count; 3]][turn % 4];
        written_and_read(&Rows::good(&mut rng, counts));
        // The same in a later edition, without the kinds above 4, with one of them and with all.
        for alone in 0..LATER + 2 {
            let mut all = counts.to_vec();
            all.extend((0..LATER).map(|nth| match alone {
                0 => 0,
                1 => [count, MOST_ROWS - count][nth % 2],
                _ if nth == alone - 2 => count,
                _ => 0,
            }));
            written_and_read(&Rows::good_in_later(&mut rng, &all));
        }
    }
}

fn written_and_read(rows: &Rows) {
    let mut counts = [u32::from(rows.edition); COUNTS_ROOM];
    for (kind, count) in (1..).zip(&mut counts[1..=KINDS.len()]) {
        *count = rows.len(kind) as u32;
    }
    counts[KINDS.len() + 1] = rows.trees() as u32;
    let lists = rows.lists();
    let (area, lengths) = (lists.concat(), lists.map(|list| list.len() as u32));
    let mut room = vec![0xAA; RETURN_ROOM + 10];
    let mut size = [0, 77];
    assert_eq!(write(counts[0], &area, &lengths, &mut room, &mut size), 0);
    let bytes = rows.to_bytes();
    assert_eq!(size, [bytes.len() as u32, 77]);
    assert!(room[..bytes.len()] == bytes);
    assert!(room[bytes.len()..].iter().all(|&byte| byte == 0xAA));

    let mut memory = Memory::new(ROWS_ROOM + 9, COUNTS_ROOM + 2);
    assert_eq!(memory.read(&bytes), 0);
    let (front, rest) = memory.rows.split_at(area.len());
    assert_eq!(front, area);
    assert!(rest.iter().all(|&element| element == PATTERN));
    assert_eq!(memory.counts[..COUNTS_ROOM], counts);
    assert_eq!(memory.counts[COUNTS_ROOM..], [PATTERN; 2]);
}

/// By hand: 2, 3, 1 and 1 rows end at elements 30, 45, 50 and 56.
#[test]
fn short_rooms_are_refused_by_kind() {
    let bytes = Rows::good(&mut Rng::new(93), [2, 3, 1]).to_bytes();
    let enough = COUNTS_ROOM;
    for (rows, counts, due) in [
        (56, enough, 0),
        (57, enough + 1, 0),
        (55, enough, 9004),
        (50, enough, 9004),
        (49, enough, 9003),
        (45, enough + 2, 9003),
        (44, enough, 9002),
        (30, enough, 9002),
        (29, enough, 9001),
        (0, enough, 9001),
        (56, enough - 1, 9000),
        (29, enough - 1, 9000),
        (0, 0, 9000),
    ] {
        let mut memory = Memory::new(rows, counts);
        assert_eq!(memory.read(&bytes), due, "{rows} and {counts}");
        assert_eq!(memory.untouched(), due != 0);
    }
    // A kind without rows needs no room: the place is a kind that has some.
    let bytes = Rows::good(&mut Rng::new(94), [0, 0, 2]).to_bytes();
    for (rows, due) in [(16, 0), (15, 9004), (10, 9004), (9, 9003), (0, 9003)] {
        assert_eq!(Memory::new(rows, COUNTS_ROOM).read(&bytes), due, "{rows}");
    }
    // Two rows of abandoned land more end at element 30, two savannas at 58, two soils at
    // 76, two crops at 100.
    let second = |later: [usize; 4]| {
        let [a, v, s, c] = later;
        Rows::good_in(&mut Rng::new(95), 2, [0, 0, 2, a, v, s, c]).to_bytes()
    };
    for (later, rooms) in [
        (
            [2, 0, 0, 0],
            &[(30, 0), (29, 9005), (16, 9005), (15, 9004)][..],
        ),
        ([2, 2, 0, 0], &[(58, 0), (57, 9006), (30, 9006), (29, 9005)]),
        ([0, 2, 0, 0], &[(44, 0), (43, 9006), (16, 9006), (15, 9004)]),
        ([2, 2, 2, 0], &[(76, 0), (75, 9007), (58, 9007), (57, 9006)]),
        ([0, 0, 2, 0], &[(34, 0), (33, 9007), (16, 9007), (15, 9004)]),
        (
            [2, 2, 2, 2],
            &[(100, 0), (99, 9008), (76, 9008), (75, 9007)],
        ),
        ([0, 0, 0, 2], &[(40, 0), (39, 9008), (16, 9008), (15, 9004)]),
    ] {
        let bytes = second(later);
        for &(rows, due) in rooms {
            assert_eq!(Memory::new(rows, COUNTS_ROOM).read(&bytes), due, "{rows}");
            assert_eq!(
                Memory::new(rows, COUNTS_ROOM - 1).read(&bytes),
                9000,
                "{rows}"
            );
        }
    }
    // A refusal of the bytes comes before.
    assert_eq!(Memory::new(0, 0).read(&bytes[1..]), 1000);
}
