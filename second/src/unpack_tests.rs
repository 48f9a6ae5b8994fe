//! The text of a return to the letter, and both round trips.

use super::*;
use crate::inputs;
use crate::judge::judge;
use crate::kinds::{RETURN_ROOM, ROWS_ROOM};
use crate::make::{worked_day, Rows};
use crate::pack::pack;
use crate::reader::read;
use crate::rng::Rng;

#[test]
fn the_worked_day() {
    let due = "edition,1\n\
        # conversion,id,area (kha),before (t/ha),after (t/ha),on-site_fraction,\
        on-site_oxidised_fraction,on-site_carbon_fraction,off-site_fraction,\
        off-site_oxidised_fraction,off-site_carbon_fraction,ten-year_area (kha),\
        ten-year_before (t/ha),ten-year_after (t/ha),decay_fraction,decay_carbon_fraction\n\
        conversion,7,2.00,100.0,10.0,0.400,0.900,0.500,0.200,0.900,0.500,3.00,100.0,10.0,0.300,\
        0.500\n\
        # stock,id,unit_code (land or trees),rate (t/ha or kt per 1000 trees),\
        amount (kha or 1000 trees),carbon_fraction\n\
        stock,1,land,6.80,10.00,0.500\n\
        # harvest,id,F (1000 m3),G (t/m3),I (kt),J (kt)\n\
        harvest,1,50.0,0.950,30.0,0.0\n\
        # parameters,N,CH4,CO,N/C,N2O,NOx\n\
        parameters,0.500,0.012,0.060,0.010,0.007,0.121\n";
    assert_eq!(text(&worked_day().to_bytes()).as_deref(), Ok(due));
}

/// The later kinds, and trees: two rows of a kind have one note.
#[test]
fn the_other_kinds() {
    let rows = Rows {
        edition: 2,
        stock: vec![[4, 0, 250, 1_200, 500], [5, 1, 25, 12, 500]],
        parameters: vec![[1_000, 0, 1, 10, 100, 999]],
        abandoned: vec![[u32::MAX, 10_000_000, 10_000, 1_000, 1, 2, 3]],
        savanna: vec![[0, 1_000_000, 10_000, 1, 2, 3, 4, 5, 6, 7, 8, 9, 10, 11]],
        soil: vec![[1, 65_535, 0, 100_000, 100_000, 10_000, 300, 1, 99]],
        crop: vec![[1, 10_000_000, 1_000, 1, 2, 3, 10_000, 4, 5, 6, 7, 8]],
        ..Rows::default()
    };
    let due = "edition,2\n\
        # stock,id,unit_code (land or trees),rate (t/ha or kt per 1000 trees),\
        amount (kha or 1000 trees),carbon_fraction\n\
        stock,4,land,2.50,12.00,0.500\n\
        stock,5,trees,0.0025,12,0.500\n\
        # parameters,N,CH4,CO,N/C,N2O,NOx\n\
        parameters,1.000,0.000,0.001,0.010,0.100,0.999\n\
        # abandoned,id,area (kha),growth_rate (t/ha),carbon_fraction,longer_area (kha),\
        longer_growth_rate (t/ha),longer_carbon_fraction\n\
        abandoned,4294967295,100000.00,100.00,1.000,0.01,0.02,0.003\n\
        # savanna,id,area (kha),density (t/ha),fraction_really_burned,live_fraction,\
        live_oxidised_fraction,live_carbon_fraction,dead_oxidised_fraction,dead_carbon_fraction,\
        N/C,CH4,CO,N2O,NOx\n\
        savanna,0,10000.00,1000.0,0.001,0.002,0.003,0.004,0.005,0.006,0.007,0.008,0.009,0.010,0.011\n\
        # soil,id,land_system,soil_type,area_now (Mha),area_then (Mha),native (t/ha),base,tillage,\
        input\n\
        soil,1,65535,0,100.000,100.000,1000.0,3.00,0.01,0.99\n\
        # crop,id,production (kt),residue_ratio,dry_matter,burned_fraction,oxidised_fraction,\
        carbon_fraction,N/C,CH4,CO,N2O,NOx\n\
        crop,1,1000000.0,10.00,0.001,0.002,0.003,1.0000,0.004,0.005,0.006,0.007,0.008\n";
    assert_eq!(text(&rows.to_bytes()).as_deref(), Ok(due));
}

#[test]
fn refusals_are_the_judges() {
    let mut refused = 0;
    for index in 0..8_000 {
        let case = inputs::drawn_explained(&mut Rng::for_input(343, index));
        let answer = judge(&case.bytes).answer();
        let (mut room, mut size) = ([0xAA; UNPACK_ROOM], [77; 2]);
        assert_eq!(
            unpack(&case.bytes, &mut room, &mut size),
            answer,
            "{}",
            case.how
        );
        if answer > 0 {
            refused += 1;
            assert!(room.iter().all(|&byte| byte == 0xAA) && size == [77; 2]);
        }
    }
    assert!(refused > 3_000);
}

fn repacked(text: &str) -> Vec<u8> {
    let (mut room, mut size) = ([0; RETURN_ROOM], [0]);
    assert_eq!(pack(text.as_bytes(), &mut room, &mut size), 0, "{text}");
    room[..size[0] as usize].to_vec()
}

/// "the text that `unpack` makes of an accepted return packs to the same bytes"
#[test]
fn unpacked_and_packed() {
    let mut longest = 0;
    for index in 0..4_000 {
        let bytes = Rows::any_good(&mut Rng::for_input(344, index)).to_bytes();
        let made = text(&bytes).expect("accepted");
        assert_eq!(repacked(&made), bytes);
        // And the rows are those that reading gives.
        let (mut rows, mut counts) = ([0; ROWS_ROOM], [0; 10]);
        assert_eq!(read(&bytes, &mut rows, &mut counts), 0);
        let typed = crate::typed::typed(made.as_bytes()).expect("good");
        let all = typed.lists.concat();
        assert_eq!(all, rows[..all.len()]);
        longest = longest.max(made.len());
    }
    assert!(longest > 14_000 && longest <= UNPACK_ROOM, "{longest}");
}

#[test]
fn rooms() {
    let bytes = worked_day().to_bytes();
    let due = text(&bytes).expect("accepted");
    for (lent, sizes) in [
        (0, 1),
        (due.len() - 1, 1),
        (due.len(), 0),
        (due.len(), 1),
        (due.len() + 9, 2),
    ] {
        let (mut room, mut size) = (vec![0xAA; lent], vec![77; sizes]);
        let answer = unpack(&bytes, &mut room, &mut size);
        if lent >= due.len() && sizes > 0 {
            assert_eq!((answer, size[0] as usize), (0, due.len()));
            assert_eq!(room[..due.len()], *due.as_bytes());
            assert!(room[due.len()..].iter().all(|&byte| byte == 0xAA));
            assert!(size[1..].iter().all(|&size| size == 77));
        } else {
            assert_eq!(answer, 9000);
            assert!(room.iter().all(|&byte| byte == 0xAA));
            assert!(size.iter().all(|&size| size == 77));
        }
    }
}

/// Every field as long as it can be within its limit, in 32 rows of each kind.
#[test]
fn the_longest_text() {
    let mut length = "edition,2\n".len();
    for (number, kind) in (1..).zip(&KINDS) {
        let mut row = Vec::new();
        for field in kind.fields {
            row.push(field.most);
        }
        let widths = |row: &[u32]| -> usize {
            let cells = row.iter().enumerate();
            let widths = cells.map(|(nth, &value)| 1 + cell(number, nth, &row[..nth], value).len());
            kind.name.len() + widths.sum::<usize>() + 1
        };
        let mut widest = widths(&row);
        if number == 2 {
            row[1] = 0;
            widest = widest.max(widths(&row));
        }
        length += note(number).len() + kind.most_rows * widest;
    }
    assert_eq!(length, LONGEST);
    assert!(length <= UNPACK_ROOM);
}

const LONGEST: usize = 18_288;
