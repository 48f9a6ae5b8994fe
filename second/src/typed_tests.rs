//! Each rule of the text on texts made by hand.

use super::*;
use crate::make::worked_day;

/// The worked day as a department types it.
pub const DAY: &str = "edition,1\n\
    conversion,7,2,100,10,.4,0.9,0.5,0.2,0.9,0.5,3,100,10,0.3,0.5\n\
    stock,1,land,6.8,10,0.5\n\
    harvest,1,50,0.95,30,0\n\
    parameters,0.5,0.012,0.06,0.01,0.007,0.121\n";

fn day() -> String {
    DAY.replace(",.4,", ",0.4,")
}

fn lists_of(text: &str) -> Lists {
    match typed(text.as_bytes()) {
        Ok(typed) => typed.lists,
        Err(fault) => panic!("{fault:?}: {text}"),
    }
}

/// The line of the fault and its number.
fn fault_of(text: impl AsRef<[u8]>) -> Option<(u32, u32)> {
    let fault = typed(text.as_ref()).err()?;
    Some((fault.line, fault.sort.number()))
}

fn sort_of(text: &str) -> Sort {
    typed(text.as_bytes()).expect_err("a fault").sort
}

#[test]
fn the_worked_day() {
    let found = typed(day().as_bytes()).expect("good");
    assert_eq!(found.edition, 1);
    assert_eq!(found.separator, b',');
    assert_eq!(found.lists, worked_day().lists());
    assert_eq!(found.lines[..4], [[2], [3], [4], [5]]);
    // ".4" has no digit before its mark.
    let at = At { kind: 1, field: 4 };
    assert_eq!(sort_of(DAY), Sort::Number(at));
}

/// Rule 1: 131,072 bytes, the byte order mark among them.
#[test]
fn long_texts() {
    let good = day();
    let fill = |length: usize| good.clone() + &" ".repeat(length - good.len());
    assert_eq!(fault_of(fill(MOST_BYTES)), None);
    assert_eq!(fault_of(fill(MOST_BYTES + 1)), Some((0, 1)));
    let marked = |length: usize| [b"\xEF\xBB\xBF", fill(length - 3).as_bytes()].concat();
    assert_eq!(fault_of(marked(MOST_BYTES)), None);
    assert_eq!(fault_of(marked(MOST_BYTES + 1)), Some((0, 1)));
    assert_eq!(fault_of(vec![b'x'; MOST_BYTES]), Some((1, 2)));
    assert_eq!(fault_of(vec![b'x'; MOST_BYTES + 1]), Some((0, 1)));
}

/// Rules 2 and 3: the mark, either end of a line, none at the last, and a CR that ends none.
#[test]
fn marks_and_ends() {
    let (good, due) = (day(), worked_day().lists());
    assert_eq!(lists_of(&format!("\u{feff}{good}")), due);
    assert_eq!(lists_of(&good.replace('\n', "\r\n")), due);
    assert_eq!(lists_of(good.trim_end()), due);
    assert_eq!(fault_of(good.replace('\n', "\r\n").trim_end()), None);
    // The last line ends in a CR alone: it is part of the last field.
    assert_eq!(fault_of(good.trim_end().to_string() + "\r"), Some((5, 8)));
    assert_eq!(fault_of(good.replace('\n', "\r")), Some((1, 2)));
    assert_eq!(fault_of(good.replace('\n', "\r\r\n")), Some((1, 2)));
    assert_eq!(fault_of(format!("\u{feff}\u{feff}{good}")), Some((1, 2)));
    assert_eq!(fault_of(format!("\n\u{feff}{good}")), Some((2, 2)));
    assert_eq!(fault_of(good + "\r"), Some((6, 3)));
}

/// Rule 4: passed over everywhere, and counted as lines.
#[test]
fn passed_over() {
    let between = "\n\n,,;\t \n  # a note, stock\n\"# another, \"\n";
    let text = between.to_string() + &day().replace('\n', between);
    let found = typed(text.as_bytes()).expect("good");
    assert_eq!(found.lists, worked_day().lists());
    assert_eq!(found.lines[..4], [[11], [16], [21], [26]]);
    // With tabs between, a tab is no blank: an empty field comes before the note.
    let tabs = day().replace(',', "\t");
    assert_eq!(fault_of(format!("\t# a\n{tabs}  # b\n\"#c\n")), None);
    assert_eq!(fault_of(format!("{tabs}\t# a\n")), Some((6, 3)));
    assert_eq!(fault_of(format!("{}\t# a\n", day())), None);
    assert_eq!(fault_of(format!("{},# a\n", day())), Some((6, 3)));
}

fn with_edition(line: &str) -> String {
    day().replace("edition,1", line)
}

/// Rule 5: the edition line.
#[test]
fn editions() {
    for line in [
        "edition,1",
        "EDITION,1",
        "eDiTiOn,1",
        " \t edition,1",
        "edition  ,1",
        "\"Edition\",1",
        "  \"edition\" ,\t1 ",
        "edition,\"1\"",
        "edition,00000000000000000000001",
        "edition,1,,,",
        "edition,1, \t,\"\",",
    ] {
        let found = typed(with_edition(line).as_bytes());
        assert_eq!(found.map(|found| found.edition), Ok(1), "{line:?}");
    }
    for (line, edition) in [
        ("edition,0", 0),
        ("edition,4", 4),
        ("edition,4294967295", u32::MAX),
    ] {
        let found = typed(with_edition(line).as_bytes());
        assert_eq!(found.map(|found| found.edition), Ok(edition));
    }
    for line in [
        "edition",
        "edition ",
        "edition 1",
        "edition:1",
        "edition.1",
        "edition|1",
        "editions,1",
        "editio,1",
        "dition,1",
        "e",
        "\"",
        "\"edition",
        "\"edition,1",
        "\"edition,1\"",
        "\"edition \",1",
        "\" edition\",1",
        "edition\",1",
        "\"\"edition\"\",1",
        "x edition,1",
        ",edition,1",
        "\u{a0}edition,1",
        "stock,1,land,6.8,10,0.5",
        "edition,",
        "edition,,",
        "edition,,1",
        "edition,x",
        "edition,-1",
        "edition,+1",
        "edition,1.0",
        "edition,1e0",
        "edition,1 1",
        "edition,\" 1\"",
        "edition,\"1",
        "edition,4294967296",
        "edition,4294967297",
        "edition,18446744073709551617",
        "edition,1\r\r",
        "edition\t,1",
        "edition;1,0",
        "edition\t\t1",
    ] {
        assert_eq!(fault_of(with_edition(line)), Some((1, 2)), "{line:?}");
        let below = format!("\n# a note\n{}", with_edition(line));
        assert_eq!(fault_of(below), Some((3, 2)), "{line:?}");
    }
    // The separator is the character behind the word, whatever stands elsewhere.
    assert_eq!(fault_of(with_edition("edition;1")), Some((2, 3)));
}

/// "No line that counts: fault 2, line 0."
#[test]
fn no_edition() {
    for text in ["", "\u{feff}", "\n", "\r\n", "# edition,1", " ,;\t\n\n\"#"] {
        assert_eq!(fault_of(text), Some((0, 2)), "{text:?}");
    }
    assert_eq!(fault_of("\r"), Some((1, 2)));
    assert_eq!(fault_of("edition,1"), None);
    assert_eq!(lists_of("edition,2\n"), Lists::default());
}

/// "if the fields behind the word are not exactly one: fault 6 `fields`, due 1"
#[test]
fn fields_of_the_edition() {
    for (line, found) in [
        ("edition,1,2", 2),
        ("edition,1,,x,", 3),
        ("edition,1,\" \"", 2),
        ("edition;1;;;#", 4),
    ] {
        let due = Sort::Fields { due: 1, found };
        assert_eq!(sort_of(&with_edition(line)), due, "{line:?}");
    }
    // No number comes first.
    assert_eq!(sort_of(&with_edition("edition,x,2")), Sort::Edition);
}

/// A tab before the word is a blank where a comma or a semicolon separates; where a tab does,
/// it ends an empty first field, and the word is not the first.
#[test]
fn a_tab_before_the_edition() {
    let found = typed(b"\t \tedition,3").expect("good");
    assert_eq!((found.edition, found.separator), (3, b','));
    assert_eq!(sort_of("\tedition\t3"), Sort::Edition);
    assert_eq!(sort_of(" \tedition\t3\t3"), Sort::Edition);
    assert!(typed(b"  edition \t3").is_ok());
}

/// Rule 6: blanks, quotes and empty fields behind the last; each separator.
#[test]
fn fields() {
    let due = worked_day().lists();
    for (from, to) in [
        ("stock,1,land", " stock\t, 1 ,\tland "),
        ("stock,1,land", "\"stock\", \"1\" ,\"land\""),
        ("stock,1,land", "STOCK,0001,lAnD"),
        ("10,0.5\n", "10,0.5,,, ,\t,\"\"\n"),
        ("6.8,10,", "6.80,10.00,"),
    ] {
        assert_eq!(lists_of(&day().replace(from, to)), due, "{to:?}");
    }
    for separator in [";", "\t"] {
        let other = day().replace(',', separator);
        assert_eq!(lists_of(&other), due);
        assert_eq!(lists_of(&other.replace('.', ",")), due);
        assert_eq!(
            lists_of(&other.replace("6.8", "\"6,8\"").replace("land", " Land ")),
            due
        );
    }
    for (from, to, fault) in [
        ("stock,1", "\" stock\",1", 3),
        ("stock,1", "\"stock,1", 3),
        ("stock,1", "stock\",1", 3),
        ("stock,1", "stock,\" 1\"", 8),
        ("stock,1", "stock,\"\"1\"\"", 8),
        ("stock,1", "stock,\"1", 8),
        ("stock,1", "stock,\"", 8),
        ("6.8", "\"6,8\"", 6),
        ("10,0.5\n", "10,0.5,\" \"\n", 6),
    ] {
        assert_eq!(
            fault_of(day().replace(from, to)),
            Some((3, fault)),
            "{to:?}"
        );
    }
}

/// Rule 7, in its order: of a line with several faults the first is told.
#[test]
fn the_first_fault_of_a_line() {
    let with = |line: &str| day().replace("stock,1,land,6.8,10,0.5", line);
    for (line, due) in [
        ("Edition,1", Sort::Edition),
        ("\"EDITION\"", Sort::Edition),
        ("editions,1", Sort::Kind),
        (",1,land,6.8,10,0.5", Sort::Kind),
        ("stocks,1,land,6.8,10,0.5", Sort::Kind),
        ("1,land,6.8,10,0.5", Sort::Kind),
        ("stock;1;land;6.8;10;0.5", Sort::Kind),
        ("stock 1,land,6.8,10,0.5", Sort::Kind),
        ("stock,x,land,6.8,10", Sort::Fields { due: 5, found: 4 }),
        ("stock", Sort::Fields { due: 5, found: 0 }),
        ("stock,,,,,,x", Sort::Fields { due: 5, found: 6 }),
        ("stock,1,land,6,8,10,0.5", Sort::Fields { due: 5, found: 6 }),
        ("stock,,x,,,-1", Sort::Number(At { kind: 2, field: 0 })),
        ("stock,1,x,,,-1", Sort::Unit(At { kind: 2, field: 1 })),
        ("stock,1,,2,2,2", Sort::Unit(At { kind: 2, field: 1 })),
        ("stock,1,0,2,2,2", Sort::Unit(At { kind: 2, field: 1 })),
        ("stock,1,tree,2,2,2", Sort::Unit(At { kind: 2, field: 1 })),
        ("stock,1,land,,2,2", Sort::Number(At { kind: 2, field: 2 })),
        (
            "stock,1,land,6.800,x,2",
            Sort::Decimals(At { kind: 2, field: 2 }),
        ),
        (
            "stock,1,land,6.8,99999999999,x",
            Sort::Large(At { kind: 2, field: 3 }),
        ),
        ("conversion,1", Sort::Fields { due: 15, found: 1 }),
        ("harvest,1,1,1,1", Sort::Fields { due: 5, found: 4 }),
    ] {
        assert_eq!(sort_of(&with(line)), due, "{line}");
    }
    // Kinds rise or stay the same.
    let swapped = day().replace("stock,1,land,6.8,10,0.5\n", "") + "stock,x\n";
    assert_eq!(fault_of(swapped), Some((5, 4)));
    assert_eq!(fault_of(day() + "edition\n"), Some((6, 2)));
}

/// "the 33rd row of its kind is fault 5 `rows` (parameters too)"
#[test]
fn the_33rd_row() {
    for (name, row) in [
        ("stock", "stock,1,land,6.8,10,0.5\n"),
        ("parameters", "parameters,1,1,1,1,1,1\n"),
    ] {
        let full = format!("edition,1\n{}", row.repeat(32));
        assert_eq!(fault_of(&full), None, "{name}");
        assert_eq!(fault_of(full.clone() + row), Some((34, 5)));
        assert_eq!(fault_of(full.clone() + name), Some((34, 5)));
        assert_eq!(fault_of(full.clone() + "conversion"), Some((34, 4)));
        assert_eq!(fault_of(full.clone() + name + "s"), Some((34, 3)));
        assert_eq!(fault_of(full + "crop,1"), Some((34, 6)));
    }
}

/// Rules 8 and 10: a stock row by its unit.
#[test]
fn land_and_trees() {
    let with = |rest: &str| format!("edition;1\nstock;4;{rest}");
    assert_eq!(
        lists_of(&with("land;2.50;12,00;0.5"))[1],
        [4, 0, 250, 1_200, 500]
    );
    assert_eq!(
        lists_of(&with("Trees;0.0025;12;,5".replace(";,5", ";0,5").as_str()))[1],
        [4, 1, 25, 12, 500]
    );
    for (rest, field) in [
        ("land;2.500;12;1", 2),
        ("trees;0.00250;12;1", 2),
        ("trees;0;12.0;1", 3),
    ] {
        let due = Sort::Decimals(At { kind: 2, field });
        assert_eq!(sort_of(&with(rest)), due, "{rest}");
    }
    // 4,294,967,295 units of either, and one more.
    assert_eq!(
        lists_of(&with("trees;429496.7295;4294967295;0"))[1][2..4],
        [u32::MAX; 2]
    );
    assert_eq!(
        lists_of(&with("land;42949672.95;42949672.95;0"))[1][2..4],
        [u32::MAX; 2]
    );
    for (rest, field) in [
        ("trees;429496.7296;0;0", 2),
        ("trees;0;4294967296;0", 3),
        ("land;0;42949672.96;0", 3),
    ] {
        let due = Sort::Large(At { kind: 2, field });
        assert_eq!(sort_of(&with(rest)), due, "{rest}");
    }
}

/// "In a file with semicolons `1,234` is 1.234."
#[test]
fn a_comma_between_semicolons() {
    let text = "edition;2\nparameters;0,500;0,012;0,06;0,01;0,007;1,234";
    assert_eq!(lists_of(text)[3], [500, 12, 60, 10, 7, 1_234]);
    let two = text.replace("1,234", "1,234.5");
    assert_eq!(sort_of(&two), Sort::Number(At { kind: 4, field: 5 }));
}

/// Rule 9: the lowest line, though a later one has an earlier fault.
#[test]
fn the_lowest_line() {
    let text = day()
        .replace("0.95", "x")
        .replace("parameters", "parameter");
    assert_eq!(fault_of(text), Some((4, 8)));
    let text = day()
        .replace("10,0.5", "10,0.5000")
        .replace("harvest", "edition");
    assert_eq!(fault_of(text), Some((3, 9)));
}

/// Decimals of every field: all of them pass, and one more does not.
#[test]
fn decimals_of_every_field() {
    for (kind, of) in (1..).zip(&KINDS) {
        for nth in 0..of.numbers {
            let mut cells: Vec<String> = vec!["0".to_string(); of.numbers];
            if kind == 2 {
                cells[1] = "land".to_string();
            }
            let Spelling::Decimals(decimals) = spelling(kind, nth, &[0; 15][..nth]) else {
                continue;
            };
            for more in 0..2 {
                cells[nth] = match decimals + more {
                    0 => "7".to_string(),
                    digits => format!("0.{}7", "0".repeat(digits - 1)),
                };
                let text = format!("edition,2\n{},{}\n", of.name, cells.join(","));
                if more == 0 {
                    assert_eq!(lists_of(&text)[usize::from(kind) - 1][nth], 7, "{text}");
                } else {
                    let due = Sort::Decimals(At { kind, field: nth });
                    assert_eq!(sort_of(&text), due, "{text}");
                }
            }
        }
    }
}
