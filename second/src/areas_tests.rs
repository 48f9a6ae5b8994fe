//! Mineral soils (02, §11) in every function, where number 13 is tried.

use super::*;
use crate::doubles::subtotal;
use crate::heaviest::heaviest;
use crate::inputs;
use crate::judge::{check, judge};
use crate::kinds::{COUNTS_ROOM, RETURN_ROOM, ROWS_ROOM};
use crate::lists::RowLists;
use crate::make::{uneven_type, worked_day, Rows};
use crate::reader::{count, read};
use crate::rng::Rng;
use crate::sheets::{figures, lines, NUMBERS};

/// Type, area now and then of each row, which stand from this place on.
fn uneven(place: usize, rows: &[[u32; 3]]) -> Option<SoilType> {
    let mut areas = Areas::default();
    for (row, place) in rows.iter().zip(place..) {
        areas.add(place, *row);
    }
    areas.uneven()
}

fn at(number: u32, [now, then]: [u64; 2], place: usize) -> Option<SoilType> {
    Some(SoilType {
        number,
        now,
        then,
        place,
    })
}

#[test]
fn sums_by_hand() {
    assert_eq!(uneven(0, &[]), None);
    assert_eq!(uneven(0, &[[0, 0, 0]]), None);
    assert_eq!(uneven(7, &[[5, 1, 0]]), at(5, [1, 0], 7));
    // Even in the sum alone.
    assert_eq!(uneven(0, &[[5, 1, 0], [5, 2, 2], [5, 0, 1]]), None);
    // The first row that differs by itself is another's.
    let rows = [[9, 1, 0], [5, 2, 2], [9, 0, 1], [5, 3, 4]];
    assert_eq!(uneven(24, &rows), at(5, [5, 6], 25));
    // The lowest type, though it stands later; of one that is even, not at all.
    let rows = [[9, 1, 0], [0, 4, 4], [7, 2, 3], [8, 1, 9]];
    assert_eq!(uneven(0, &rows), at(7, [2, 3], 2));
    let ends = [[65_535, 0, 1], [0, 100_000, 99_999]];
    assert_eq!(uneven(0, &ends), at(0, [100_000, 99_999], 1));
    assert_eq!(uneven(0, &ends[..1]), at(65_535, [0, 1], 0));
    let most = [[1, 100_000, 0]; 32];
    assert_eq!(uneven(0, &most), at(1, [3_200_000, 0], 0));
    let all: Vec<[u32; 3]> = (0..32).map(|own| [own, 1, u32::from(own < 31)]).collect();
    assert_eq!(uneven(12, &all), at(31, [1, 0], 43));
}

/// The worked day in edition 2 and a soil whose area is one less now.
fn bad() -> Rows {
    let mut rows = worked_day();
    rows.edition = 2;
    rows.soil = vec![[5, 1, 2, 3, 4, 1, 1, 1, 1]];
    rows
}

/// "straight after 12, so before 11 and 9", in each function that has them. The soils
/// are block 4.
#[test]
fn later_numbers_come_after() {
    let bad = bad().to_bytes();
    let [mut counts, mut rows] = [[7; COUNTS_ROOM].to_vec(), [7; ROWS_ROOM].to_vec()];
    for room in [0, COUNTS_ROOM] {
        assert_eq!(count(&bad, &mut counts[..room]), 13_048);
        assert_eq!(read(&bad, &mut rows[..room], &mut counts[..room]), 13_048);
    }
    assert_eq!(read(&bad, &mut rows, &mut counts), 13_048);
    let (mut numbers, mut bytes) = (vec![7; NUMBERS], Vec::new());
    for room in [0, NUMBERS - 1, NUMBERS] {
        assert_eq!(figures(&bad, &mut numbers[..room]), 13_048);
        for code in [0, 1, 2, 3, u32::MAX] {
            bytes.resize(room, 7);
            assert_eq!(subtotal(&bad, code, &mut bytes), 13_048);
            assert_eq!(heaviest(&bad, code, &mut numbers[..room]), 13_048);
        }
    }
    let kept = counts.iter().chain(&rows).all(|&number| number == 7);
    assert!(kept && numbers.iter().all(|&n| n == 7) && bytes.iter().all(|&b| b == 7));
    let mut room = [b'#'; 20];
    assert_eq!(lines(&bad, &mut room[..13]), 0);
    assert_eq!(room, [b'#'; 20]);
    assert_eq!(lines(&bad, &mut room), 14);
    assert_eq!(&room, b"refused 13 48\n######");
}

/// "Writing: 10, then 5 to 7", 12, 13, and last 9.
#[test]
fn writing_tries_it_after_12() {
    let written = |rows: &Rows, room: usize, sizes: usize| {
        let (mut room, mut size) = (vec![7; room], vec![7; sizes]);
        let answer = RowLists::of(String::new(), rows).write(&mut room, &mut size);
        assert!(answer == 0 || room.iter().all(|&byte| byte == 7));
        assert!(answer == 0 || size.iter().all(|&size| size == 7));
        answer
    };
    let mut rows = bad();
    for (room, sizes) in [(0, 0), (2_559, 1), (2_560, 0), (2_560, 1), (RETURN_ROOM, 3)] {
        assert_eq!(written(&rows, room, sizes), 13_048);
    }
    rows.harvest[0][1..].fill(0);
    assert_eq!(written(&rows, 0, 0), 12_000);
    rows.conversion[0][4] = 600;
    assert_eq!(written(&rows, 0, 0), 7000);
    rows.soil[0][2] = 65_536;
    assert_eq!(written(&rows, 0, 0), 6048);
    rows.edition = 1;
    assert_eq!(written(&rows, 0, 0), 10_007);
    rows.edition = 9;
    assert_eq!(written(&rows, 0, 0), 10_000);
    let mut good = bad();
    good.soil[0][3] = 4;
    assert_eq!([0, 2_559].map(|room| written(&good, room, 1)), [9000; 2]);
    assert_eq!(written(&good, 2_560, 1), 0);
}

/// "a soil type of 65,536 is 6": a number of 32 bits that two bytes would take for 0.
#[test]
fn a_type_above_its_limit_is_6() {
    let mut good = bad();
    good.soil[0][3] = 4;
    let answer =
        |rows: &Rows| RowLists::of(String::new(), rows).write(&mut [0; RETURN_ROOM], &mut [0]);
    for at in [1, 2] {
        for (value, due) in [
            (65_535, 0),
            (65_536, 6048),
            (65_537, 6048),
            (u32::MAX, 6048),
        ] {
            let mut rows = good.clone();
            rows.soil[0][at] = value;
            assert_eq!(answer(&rows), due, "field {at}: {value}");
        }
    }
}

/// Whatever else is in a return: it is accepted with every type even, and refused by 13
/// at the maker's own first row of the lowest uneven type.
#[test]
fn accepted_soils_are_even() {
    let [mut accepted, mut with_soils, mut refused] = [0; 3];
    for index in 0..20_000 {
        let case = inputs::with_figures(index, &mut Rng::for_input(216, index as u64));
        let lists = || crate::lists::rows_of(&case.bytes);
        match check(&case.bytes) {
            Ok(_) => {
                let lists = lists();
                let soils = crate::lists::rows_in(&lists, 7);
                assert_eq!(uneven_type(soils), None, "{}", case.how);
                accepted += 1;
                with_soils += u32::from(!soils.is_empty());
            }
            Err(refusal) if refusal.number == 13 => {
                let lists = lists();
                let (_, first) = uneven_type(crate::lists::rows_in(&lists, 7)).expect("one");
                let block = case.bytes.chunks(512).position(|block| block[0] == 7);
                let due = 12 * block.expect("soils") + first;
                assert_eq!(refusal.place as usize, due, "{}", case.how);
                refused += 1;
            }
            Err(_) => {}
        }
    }
    assert!(
        with_soils > 2_000 && refused > 400,
        "{with_soils} {refused}"
    );
    // As before there were soils.
    assert!(3 * accepted > 20_000, "{accepted}");
}

/// Number 12 comes before it, and so does each lower one.
#[test]
fn lower_numbers_come_first() {
    let mut rows = bad();
    let judged = |rows: &Rows| judge(&rows.to_bytes()).answer();
    assert_eq!(judged(&rows), 13_048);
    rows.harvest[0][1..].fill(0);
    assert_eq!(judged(&rows), 12_000);
    rows.conversion[0][4] = 600;
    assert_eq!(judged(&rows), 7000);
    rows.soil[0][8] = 301;
    assert_eq!(judged(&rows), 6048);
    rows.soil.push(rows.soil[0]);
    assert_eq!(judged(&rows), 5049);
    rows.edition = 1;
    assert_eq!(judged(&rows), 3004);
}
