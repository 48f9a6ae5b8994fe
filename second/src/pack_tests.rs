//! What a text packs to, and why it doesn't, to the letter.

use super::*;
use crate::explain;
use crate::make::{worked_day, Rows};
use crate::rng::Rng;
use crate::spoil::{spoil, to_be_spoiled, SPOILED};
use crate::unpack;

const DAY: &str = "edition,1\n\
    conversion,7,2,100,10,0.4,0.9,0.5,0.2,0.9,0.5,3,100,10,0.3,0.5\n\
    stock,1,land,6.8,10,0.5\n\
    harvest,1,50,0.95,30,0\n\
    parameters,0.5,0.012,0.06,0.01,0.007,0.121\n";

fn why_of(text: &str) -> String {
    String::from_utf8(why(text.as_bytes()).as_bytes().to_vec()).expect("the text is ASCII")
}

fn packed(text: &str) -> Result<Vec<u8>, u32> {
    let (mut room, mut size) = ([0; RETURN_ROOM], [0]);
    match pack(text.as_bytes(), &mut room, &mut size) {
        0 => Ok(room[..size[0] as usize].to_vec()),
        answer => Err(answer),
    }
}

#[test]
fn the_worked_day_packs() {
    assert_eq!(packed(DAY), Ok(worked_day().to_bytes()));
    assert_eq!(why_of(DAY), "packed 2048\n");
    let spoken = DAY
        .replace(',', " ; ")
        .replace('.', ",")
        .replace('\n', "\r\n");
    assert_eq!(packed(&spoken), packed(DAY));
}

#[test]
fn faults_come_first() {
    // A fault of the text behind an edition that there isn't, and behind a row that no
    // return would have.
    let text = DAY.replace("edition,1", "edition,9").replace("0.121", "x");
    assert_eq!(packed(&text), Err(8));
    let due = "refused line 5 number\nfield 5\nfield_name NOx\n";
    assert_eq!(why_of(&text), due);
    assert_eq!(why_of(""), "refused line 0 edition\n");
    let long = " ".repeat(131_073);
    assert_eq!(
        (packed(&long), &*why_of(&long)),
        (Err(1), "refused line 0 long\n")
    );
}

/// Number 10, of the edition and of a kind.
#[test]
fn refused_by_10() {
    let text = DAY.replace("edition,1", "edition,4294967295");
    assert_eq!(packed(&text), Err(10_000));
    assert_eq!(why_of(&text), "refused 10 0\nedition 4294967295\n");
    let parameters = "parameters,0.5,0.012,0.06,0.01,0.007,0.121\n";
    let none = DAY.replace(parameters, "");
    assert_eq!(packed(&none), Err(10_004));
    assert_eq!(
        why_of(&none),
        "refused 10 4\nkind_name parameters\nrows 0\n"
    );
    let twice = DAY.to_string() + parameters + "abandoned,1,0,0,0,0,0,0\n";
    assert_eq!(
        why_of(&twice),
        "refused 10 4\nkind_name parameters\nrows 2\n"
    );
    let crops = DAY.to_string() + &"crop,1,0,0,0,0,0,0,0,0,0,0,0\n".repeat(3);
    assert_eq!(packed(&crops), Err(10_008));
    assert_eq!(why_of(&crops), "refused 10 8\nkind_name crop\nrows 3\n");
    assert_eq!(
        why_of("edition,2"),
        "refused 10 4\nkind_name parameters\nrows 0\n"
    );
}

/// The numbers about a row name it, its values and its line.
#[test]
fn refused_at_a_row() {
    let two = DAY.replace("harvest", "\n# note\nstock,1,land,0,0,0\nharvest");
    let due = "refused 5 13\nblock 1\nrow 1\nkind_name stock\nid_before 1\nid 1\nline 6\n";
    assert_eq!(why_of(&two), due);
    let wide = DAY.replace("0.2,0.9", "0.2,4294967.295");
    let due = "refused 6 0\nblock 0\nrow 0\nkind_name conversion\nid 7\nfield 8\n\
        field_name off-site_oxidised_fraction\nvalue 4294967295\nlimit 1000\nline 2\n";
    assert_eq!(why_of(&wide), due);
    let parameter = DAY.replace("0.012", "1.001");
    let due = "refused 6 36\nblock 3\nrow 0\nkind_name parameters\nfield 1\nfield_name CH4\n\
        value 1001\nlimit 1000\nline 5\n";
    assert_eq!(why_of(&parameter), due);
    let sum = DAY.replace("10,0.4,", "10,0.501,");
    let due = "refused 7 0\nblock 0\nrow 0\nkind_name conversion\nid 7\nonsite 501\noffsite 200\n\
        decay 300\nsum 1001\nline 2\n";
    assert_eq!(why_of(&sum), due);
    let trees = DAY
        .replace("edition,1", "edition,3")
        .replace("land,6.8", "trees,0.068");
    let due =
        "refused 14 12\nblock 1\nrow 0\nkind_name stock\nid 1\nunit_code 1\nedition 3\nline 3\n";
    assert_eq!(why_of(&trees), due);
    assert_eq!(packed(&trees), Err(14_012));
    let soils = DAY.replace("edition,1", "edition,2")
        + "soil,1,0,9,5,5,0,0,0,0\nsoil,2,0,3,1,1,0,0,0,0\n\nsoil,3,0,3,0.001,0,0,0,0,0\n";
    let due = "refused 13 49\nblock 4\nrow 1\nkind_name soil\nid 2\nsoil_type 3\narea_now 1001\n\
        area_then 1000\nline 7\n";
    assert_eq!(why_of(&soils), due);
}

#[test]
fn refused_by_12() {
    // L = 200 x 900 x 200 = 36,000,000; K = 500 x 950 + 1,000 x 300 is 775,000 with 30 kt.
    let little = DAY.replace("50,0.95,30,0", "0.1,0.95,0,0");
    assert_eq!(packed(&little), Err(12_000));
    assert_eq!(
        why_of(&little),
        "refused 12 0\nused 95000\ncleared 36000000\n"
    );
}

#[test]
fn rooms() {
    for (text, due) in [(DAY, 0), ("edition,1", 10_004), ("", 2)] {
        for (room, size) in [(0, 0), (2047, 1), (2048, 0), (2048, 1), (2050, 2)] {
            let (mut blocks, mut sizes) = (vec![0xAA; room], vec![77; size]);
            let answer = pack(text.as_bytes(), &mut blocks, &mut sizes);
            let fits = room >= 2048 && size > 0;
            assert_eq!(answer, if due > 0 || fits { due } else { 9000 });
            if answer == 0 {
                assert_eq!(blocks[..2048], worked_day().to_bytes());
                assert_eq!(sizes[0], 2048);
                assert!(blocks[2048..].iter().all(|&byte| byte == 0xAA));
                assert!(sizes[1..].iter().all(|&size| size == 77));
            } else {
                assert!(blocks.iter().all(|&byte| byte == 0xAA));
                assert!(sizes.iter().all(|&size| size == 77));
            }
        }
        let length = why_of(text).len();
        for lent in [0, length - 1, length, length + 3] {
            let mut room = vec![0xAA; lent];
            let given = pack_why(text.as_bytes(), &mut room);
            assert_eq!(given, if lent < length { 0 } else { length });
            assert_eq!(room[..given], why_of(text).as_bytes()[..given]);
            assert!(room[given..].iter().all(|&byte| byte == 0xAA));
        }
    }
}

/// Rows that their bytes hold are explained as the return of them is.
#[test]
fn as_the_return_is_explained() {
    let mut compared = [0; 15];
    for index in 0..6_000 {
        let mut rng = Rng::for_input(342, index);
        let number = rng.pick(&SPOILED);
        let mut rows = to_be_spoiled(&mut rng, &[number]);
        spoil(&mut rng, &mut rows, number);
        if rows.stock.iter().any(|row| row[1] > 1) {
            continue;
        }
        let text = text_of(&rows);
        let bytes = rows.to_bytes();
        let due = explain::text(&bytes);
        let due = std::str::from_utf8(due.as_bytes()).expect("text");
        let found = why_of(&text);
        let lines = found
            .strip_prefix(due)
            .unwrap_or_else(|| panic!("{found}\n{due}"));
        if number == 12 {
            assert_eq!(lines, "");
        } else {
            let line = lines.strip_prefix("line ").expect("the line");
            let line: usize = line.trim_end().parse().expect("its number");
            let row = text.lines().nth(line - 1).expect("a line");
            let name = due.lines().find_map(|line| line.strip_prefix("kind_name "));
            assert!(row.starts_with(name.expect("a kind")), "{row}");
            let id = due.lines().find_map(|line| line.strip_prefix("id "));
            let first = row.split(',').nth(1);
            assert!(id.is_none() || id == first, "{row} {found}");
        }
        compared[number as usize] += 1;
    }
    assert!(SPOILED
        .iter()
        .all(|&number| compared[number as usize] > 500));
}

/// Plain, with all decimals.
fn text_of(rows: &Rows) -> String {
    let mut text = format!("edition,{}\n", rows.edition);
    for (number, kind) in (1..).zip(&crate::kinds::KINDS) {
        for row in rows.each(number) {
            text += kind.name;
            for (field, &value) in row.iter().enumerate() {
                text += ",";
                text += &unpack::cell(number, field, &row[..field], value);
            }
            text += "\n";
        }
    }
    text
}

/// The longest reason, by hand: 132 bytes of the explanation with a value of five digits, here
/// ten, and a line of six digits.
#[test]
fn the_longest_reason_has_149_bytes() {
    let mut rows = worked_day();
    let row = rows.conversion[0];
    rows.conversion = (0..24)
        .map(|id| {
            let mut row = row;
            row[0] = u32::MAX - 23 + id;
            row
        })
        .collect();
    rows.conversion[23][8] = u32::MAX;
    let text = text_of(&rows);
    let text = text.replacen('\n', &"\n".repeat(131_072 - text.len() + 1), 1);
    assert_eq!(text.len(), 131_072);
    let found = why_of(&text);
    assert!(found.starts_with("refused 6 23\n"), "{found}");
    assert_eq!(found.len(), 149, "{found}");
    assert!(found.len() <= PACK_WHY_ROOM);
}
