use super::*;
use crate::kinds::{later_kinds, RETURN_ROOM};
use crate::make::WITH_IDS;
use crate::row_sweeps;
use crate::writer::write;

fn answer(made: &RowLists) -> u32 {
    made.write(&mut [0; RETURN_ROOM], &mut [0])
}

#[test]
fn every_index_makes_lists() {
    let mut given = [0; 15];
    for index in 0..row_sweeps::size() {
        let made = row_sweeps::case(index, &mut Rng::for_input(41, index as u64));
        given[(answer(&made) / 1000) as usize] += 1;
    }
    for number in [0, 5, 6, 7, 10, 12, 13, 14] {
        assert!(given[number] > 20, "{given:?}");
    }
    assert_eq!(given[8], 0, "8 is never given again");
    assert_eq!(given.iter().sum::<usize>(), row_sweeps::size());
}

#[test]
fn every_answer_comes_often() {
    let mut given = [0; 15];
    let mut places = [0; KINDS.len() + 1];
    // 20,000 for the first six kinds, and for each kind more as many more.
    for index in 0..20_000 * KINDS.len() as u64 / 6 {
        let answer = answer(&case(&mut Rng::for_input(42, index)));
        given[(answer / 1000) as usize] += 1;
        if answer / 1000 == 10 {
            places[(answer % 1000) as usize] += 1;
        }
    }
    for number in [0, 5, 6, 7, 10, 12, 13, 14] {
        assert!(given[number] > 600, "{given:?}");
    }
    assert_eq!(given[8], 0, "8 is never given again");
    assert!(places.iter().all(|&times| times > 200), "{places:?}");
}

#[test]
fn numbers_broken_alone_are_given() {
    let mut rng = Rng::new(43);
    for number in [5, 6, 7, 10, 12, 13, 14] {
        for _ in 0..1_000 {
            let made = broken(&mut rng, &[number]);
            assert_eq!(answer(&made) / 1000, number, "{}", made.how);
        }
    }
}

/// By hand: the order 10, 5, 6, 14, 7, 12, and places counted in whole blocks.
#[test]
fn order_and_places() {
    let mut rows = Rows {
        conversion: (0..13)
            .map(|id| [id, 1, 9, 3, 1, 1, 1, 1, 1, 1, 1, 9, 3, 1, 1])
            .collect(),
        stock: vec![[5, 0, 1, 1, 1], [6, 1, 1, 1, 1]],
        harvest: vec![[9, 1, 1, 1, 1]],
        parameters: vec![[1; 6]],
        ..Rows::default()
    };
    let judged = |rows: &Rows| answer(&RowLists::of(String::new(), rows));
    assert_eq!(judged(&rows), 0);
    // After above before is no fault, in either period.
    rows.conversion[12][3] = 10;
    rows.conversion[11][12] = 10;
    assert_eq!(judged(&rows), 0);
    // 12 rows that clear 6 each: 72, and nothing used.
    rows.harvest[0][1..].fill(0);
    assert_eq!(judged(&rows), 12_000);
    rows.conversion[12][4] = 999;
    assert_eq!(judged(&rows), 7012);
    // Trees, of which edition 3 has none.
    rows.edition = 2;
    assert_eq!(judged(&rows), 7012);
    rows.edition = 3;
    assert_eq!(judged(&rows), 14_025);
    rows.stock[0][1] = 1;
    assert_eq!(judged(&rows), 14_024);
    rows.stock[0][1] = 257;
    assert_eq!(judged(&rows), 6024);
    rows.stock[0][1] = 2;
    assert_eq!(judged(&rows), 6024);
    rows.stock[0][1] = 0;
    rows.edition = 1;
    assert_eq!(judged(&rows), 7012);
    rows.parameters[0][5] = 65_536;
    assert_eq!(judged(&rows), 6048);
    rows.harvest[0][2] = 65_537;
    assert_eq!(judged(&rows), 6036);
    rows.stock[1][1] = 256;
    assert_eq!(judged(&rows), 6025);
    rows.stock[1][0] = 5;
    assert_eq!(judged(&rows), 5025);
    rows.conversion[1][0] = 0;
    assert_eq!(judged(&rows), 5001);
    rows.parameters.push([1; 6]);
    assert_eq!(judged(&rows), 10_004);
    let mut lists = rows.lists();
    lists[2].pop();
    assert_eq!(answer(&RowLists::joined(String::new(), 1, &lists)), 10_003);
    lists[0].extend([0; 20 * 15]);
    let mut made = RowLists::joined(String::new(), 1, &lists);
    assert_eq!(answer(&made), 10_001);
    made.rows.pop();
    assert_eq!(answer(&made), 10_000);
}

/// By hand: number 10 at place 0, and beside it what is no fault of it.
#[test]
fn lengths_add_up() {
    let rows: Vec<u32> = (0..31).map(|i| if i == 0 { 9 } else { 0 }).collect();
    let answer =
        |rows: &[u32], lengths: &[u32]| write(1, rows, lengths, &mut [0; 5_120], &mut [0; 1]);
    // Lengths of the first kinds, and none of the others.
    let padded = |front: &[u32]| [front, &vec![0; KINDS.len() - front.len()]].concat();
    assert_eq!(answer(&rows, &padded(&[15, 5, 5, 6])), 0);
    // Not a length for each kind, though each sum is 31.
    let one_too_many = [padded(&[15, 5, 5, 6]), vec![0]].concat();
    let all_but_one = &one_too_many[..KINDS.len() - 1];
    let mut last = [padded(&[15, 5, 5, 5]), vec![1]].concat();
    for lengths in [
        &[15, 5, 11][..],
        &[15, 5, 5, 6],
        all_but_one,
        &one_too_many,
        &last,
        &[31],
    ] {
        assert_eq!(answer(&rows, lengths), 10_000, "{lengths:?}");
    }
    last.truncate(KINDS.len());
    assert_eq!(answer(&rows, &last), 10_000);
    // Another sum, of which some would be 31 in 32 bits.
    for lengths in [
        &[15, 5, u32::MAX, 12][..],
        &[15, 5, 5, 5],
        &[15, 5, 5, 12],
        &[],
        &[1 << 31, 1 << 31, 25, 6],
        &[1 << 30, 1 << 30, 1 << 30, (1 << 30) + 31],
        &[u32::MAX, u32::MAX, u32::MAX, 34],
        &[u32::MAX, u32::MAX, u32::MAX, u32::MAX, 35],
        &[15, 5, 5, 6, 1 << 31, 1 << 31],
    ] {
        assert_eq!(answer(&rows, &padded(lengths)), 10_000, "{lengths:?}");
    }
    assert_eq!(answer(&[], &[]), 10_000);
    // The sum is right: the kinds come next.
    for (from, lengths, due) in [
        (31, &[][..], 10_004),
        (0, &[15, 5, 6, 5], 10_003),
        (0, &[16, 4, 5, 6], 10_001),
        (0, &[0, 20, 5, 6], 5001),
        (15, &[0, 10, 0, 6], 5001),
        (20, &[0, 5, 0, 6], 0),
        (20, &[0, 0, 5, 6], 0),
    ] {
        assert_eq!(answer(&rows[from..], &padded(lengths)), due, "{lengths:?}");
    }
}

/// The edition is tried at place 0, each kind above 4 at its own.
#[test]
fn editions() {
    let answer = |edition: u32, of: &[(u8, usize)]| {
        let mut lengths = [0; KINDS.len()];
        for &(kind, length) in of {
            lengths[usize::from(kind) - 1] = length as u32;
        }
        let rows = vec![0; of.iter().map(|(_, length)| length).sum()];
        write(edition, &rows, &lengths, &mut [0; RETURN_ROOM], &mut [0; 1])
    };
    for kind in later_kinds() {
        let (numbers, own) = (
            KINDS[usize::from(kind) - 1].numbers,
            10_000 + u32::from(kind),
        );
        let one = (kind, numbers);
        for (of, first, second) in [
            (&[(4, 6)][..], 0, 0),
            (&[(4, 6), one], own, 0),
            (&[(4, 6), (kind, 1)], own, own),
            (&[(4, 6), (kind, numbers - 1)], own, own),
            (&[(4, 6), (kind, 33 * numbers)], own, own),
            // A lower kind's fault comes first.
            (&[(4, 5), one], 10_004, 10_004),
            (&[(1, 1), (4, 5), one], 10_001, 10_001),
        ] {
            assert_eq!(answer(1, of), first, "{of:?}");
            assert_eq!(
                [2, 3].map(|edition| answer(edition, of)),
                [second; 2],
                "{of:?}"
            );
            for edition in UNKNOWN_EDITIONS {
                assert_eq!(answer(edition, of), 10_000, "{of:?}");
            }
        }
        for higher in later_kinds().filter(|&higher| higher > kind) {
            let numbers = KINDS[usize::from(higher) - 1].numbers;
            let both = [(4, 6), one, (higher, numbers)];
            assert_eq!([1, 2, 3].map(|edition| answer(edition, &both)), [own, 0, 0]);
            let worse = [(4, 6), (kind, 1), (higher, numbers - 1)];
            assert_eq!([1, 2, 3].map(|edition| answer(edition, &worse)), [own; 3]);
        }
    }
}

/// Rows of each kind above 4 stand behind the parameters, and each field has its limit.
#[test]
fn places_of_later_kinds() {
    for kind in later_kinds() {
        // Harvest is block 0, the parameters block 1, the kind blocks 2 to 4.
        let mut counts = [0; WITH_IDS.len()];
        counts[2] = 1;
        counts[WITH_IDS
            .iter()
            .position(|&other| other == kind)
            .expect("an id")] = 32;
        let mut rows = Rows::good_in(&mut Rng::new(46), 2, counts);
        (0..32).for_each(|row| rows.row(kind, row)[0] = 7 + row as u32);
        let judged = |rows: &Rows| answer(&RowLists::of(String::new(), rows));
        // Soils without area are even, whatever their types are.
        let areas = |rows: &mut Rows, area: u32| {
            let soils = rows.soil.iter_mut();
            soils.for_each(|row| (row[3], row[4]) = (area, area));
        };
        areas(&mut rows, 0);
        assert_eq!(judged(&rows), 0);
        let fields = fields(kind);
        for (at, field) in fields.iter().enumerate().skip(1) {
            for (row, place) in [(0, 24), (11, 35), (12, 36), (31, 55)] {
                let good = rows.row(kind, row)[at];
                for above in [field.most + 1, 65_536.max(field.most + 1), u32::MAX] {
                    rows.row(kind, row)[at] = above;
                    assert_eq!(judged(&rows), 6000 + place, "kind {kind} field {at}");
                }
                rows.row(kind, row)[at] = field.most;
                if kind == 7 && [3, 4].contains(&at) {
                    areas(&mut rows, field.most);
                }
                assert_eq!(judged(&rows), 0, "kind {kind} field {at}");
                rows.row(kind, row)[at] = good;
                areas(&mut rows, 0);
            }
        }
        // Of two the lower place, and 5 before 6.
        rows.row(kind, 31)[1] = u32::MAX;
        rows.row(kind, 30)[2] = u32::MAX;
        assert_eq!(judged(&rows), 6054);
        rows.row(kind, 31)[0] = 37;
        assert_eq!(judged(&rows), 5055);
        rows.row(kind, 24)[0] = 30;
        assert_eq!(judged(&rows), 5048);
        counts[2] = 0;
        let mut lists = Rows::good_in(&mut Rng::new(47), 2, counts).lists();
        let more = vec![99; fields.len()];
        lists[usize::from(kind) - 1].extend(more);
        for edition in [1, 2, 3] {
            let made = RowLists::joined(String::new(), edition, &lists);
            assert_eq!(answer(&made), 10_000 + u32::from(kind));
        }
    }
}

/// Right in 32 bits and wrong by 2^32 or more.
#[test]
fn sums_wrap() {
    let mut over = [0; KINDS.len()];
    for index in 0..6_000 {
        let made = row_sweeps::case(row_sweeps::size() - 1, &mut Rng::for_input(45, index));
        let sum: u64 = made.lengths.iter().map(|&length| u64::from(length)).sum();
        assert_eq!(sum as u32 as usize, made.rows.len());
        over[(sum >> 32) as usize] += 1;
        assert_eq!(answer(&made), 10_000);
    }
    // So many lengths together are hardly ever near 2^32 each.
    assert!(
        over[0] == 0 && over[1..6].iter().all(|&times| times > 20),
        "{over:?}"
    );
}

#[test]
fn rooms() {
    let rows = Rows::good(&mut Rng::new(44), [13, 0, 1]);
    let made = RowLists::of(String::new(), &rows);
    for (room, size, due) in [
        (2_048, 1, 0),
        (2_047, 1, 9000),
        (2_048, 0, 9000),
        (0, 3, 9000),
    ] {
        let (mut room, mut size) = (vec![0xAA; room], vec![7; size]);
        assert_eq!(made.write(&mut room, &mut size), due);
        let untouched = room.iter().all(|&byte| byte == 0xAA) && size.iter().all(|&s| s == 7);
        assert_eq!(untouched, due != 0);
    }
}
