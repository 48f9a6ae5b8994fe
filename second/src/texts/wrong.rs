//! Each fault of a text in each of the ways that a department may come by it.

use super::sheet::{Line, Sheet};
use crate::kinds::KINDS;
use crate::make::{TREES, UNIT_CODE};
use crate::rng::Rng;
use crate::units::{spelling, Spelling};

/// A way to bring a fault about, which is the only one of a text that was good.
pub struct Way {
    pub number: u32,
    pub name: &'static str,
    pub(super) bring: fn(&mut Rng, &mut Sheet),
}

const fn way(number: u32, name: &'static str, bring: fn(&mut Rng, &mut Sheet)) -> Way {
    Way {
        number,
        name,
        bring,
    }
}

pub const WAYS: [Way; 39] = [
    way(2, "no line that counts", |_, sheet| {
        let passed = |line: &Line| matches!(line, Line::Plain(_));
        sheet.lines.retain(passed);
    }),
    way(2, "edition missing", |_, sheet| {
        if let Some(at) = sheet.edition_at() {
            sheet.lines.remove(at);
        }
    }),
    way(2, "edition in other words", |rng, sheet| {
        let word = rng.pick(&[
            "editions",
            "editio",
            "dition",
            "e dition",
            "\"edition",
            "edition\"",
            "\" edition\"",
            "\"edition \"",
            "\"\"edition\"\"",
            "'edition'",
            "\u{e9}dition",
            "edition x",
            "x edition",
            "Ausgabe",
            "",
        ]);
        edition_cell(sheet, 0, word.to_string());
    }),
    way(2, "edition without a separator", |rng, sheet| {
        let line = rng.pick(&[
            "edition",
            "EDITION  ",
            "\"edition\"",
            "edition 1",
            "edition:1",
            "edition.1",
            "edition|1",
            "edition=1",
            "edition1,1",
            "\"edition,1\"",
            "edition\r,1",
            "edition\u{a0},1",
        ]);
        if let Some(at) = sheet.edition_at() {
            sheet.lines[at] = Line::Plain(line.to_string());
        }
    }),
    way(2, "a tab before the edition, and one behind it", |rng, sheet| {
        let line = rng.pick(&["\tedition\t2", " \t edition \t1", "\t\"Edition\"\t3\t"]);
        if let Some(at) = sheet.edition_at() {
            sheet.lines[at] = Line::Plain(line.to_string());
        }
    }),
    way(2, "edition without a number", |rng, sheet| {
        let cell = rng.pick(&[
            "",
            " ",
            "\"\"",
            "x",
            "-1",
            "+1",
            "1.0",
            "1.",
            ".1",
            "1e0",
            "1 1",
            "\" 1\"",
            "\"1",
            "1\"",
            "one",
            "1%",
            "I",
            "0x1",
            "1\r\r",
            "1'",
            "\"\"1\"\"",
            "#1",
        ]);
        edition_cell(sheet, 1, cell.to_string());
    }),
    way(2, "edition too large", |rng, sheet| {
        let cell = rng.pick(&[
            "4294967296",
            "4294967297",
            "4294967298",
            "0004294967299",
            "8589934593",
            "18446744073709551616",
            "18446744073709551617",
            "36893488147419103234",
            "340282366920938463463374607431768211457",
            "100000000000000000000000000000000000000000000000000000000000001",
        ]);
        edition_cell(sheet, 1, cell.to_string());
    }),
    way(2, "edition twice", |rng, sheet| {
        let edition = rng.pick(&[1, 1, 2, 3]);
        let mut cells = sheet.edition(rng, edition);
        // A tab before the word would be an empty field.
        cells[0] = cells[0].replace('\t', " ");
        cells.truncate(rng.pick(&[1, 2, 2, 9]));
        put_in(rng, sheet, Line::Edition(cells));
    }),
    way(3, "another kind", |rng, sheet| {
        let word = rng.pick(&[
            "stocks",
            "stoc",
            "tock",
            "st ock",
            "crops",
            "convers\u{131}on",
            "\u{17f}oil",
            "\"soil",
            "soil\"",
            "\" soil\"",
            "\"soil \"",
            "\"\"soil\"\"",
            "soil\r",
            "\u{a0}soil",
            "parameter",
            "harvest 1",
            "1",
            "total",
            "editions",
            "\"edition",
            "land",
            "*",
        ]);
        with_row(rng, sheet, |_, _, cells| cells[0] = word.to_string());
    }),
    way(3, "no kind", |rng, sheet| {
        let word = rng.pick(&["", " ", "\"\"", " \"\" ", "\" \""]);
        with_row(rng, sheet, |_, _, cells| cells[0] = word.to_string());
    }),
    way(3, "a line of something else", |rng, sheet| {
        let separator = char::from(sheet.style.separator);
        let line = match rng.below(3) {
            0 => format!("{separator}# not at the front"),
            1 => format!("{separator}\"# not at the front"),
            _ => rng
                .pick(&[
                    "\r",
                    " \r ",
                    "\"\"",
                    "\"",
                    "\" \"",
                    "x",
                    "\u{feff}",
                    "total,5",
                    "1;2;3",
                    "\0",
                    "\u{a0}",
                    "-",
                    "\u{feff}# note",
                    "\"\"#",
                    "' #",
                    ",,,\r,",
                    ".",
                ])
                .to_string(),
        };
        put_in(rng, sheet, Line::Plain(line + " x"));
    }),
    way(3, "the other separator", |rng, sheet| {
        let others = [",", ";", "\t", "|", " "];
        let own = char::from(sheet.style.separator).to_string();
        let mut others = others.into_iter().filter(|other| *other != own);
        let other = others.nth(rng.below(4)).expect("four others");
        with_row(rng, sheet, |_, _, cells| {
            *cells = vec![cells.join(other)];
        });
    }),
    way(4, "two kinds swapped", |rng, sheet| {
        let rows = sheet.rows();
        let kind = |at: usize| kind_at(sheet, at);
        let pairs = rows.windows(2).map(|pair| (pair[0], pair[1]));
        let rising: Vec<_> = pairs
            .filter(|&(one, other)| kind(one) < kind(other))
            .collect();
        match rising.is_empty() {
            true => lower_behind(rng, sheet),
            false => {
                let (one, other) = rng.pick(&rising);
                sheet.lines.swap(one, other);
            }
        }
    }),
    way(4, "a lower kind behind", lower_behind),
    way(5, "a 33rd row", |rng, sheet| {
        let rows = sheet.rows();
        if !rows.is_empty() {
            let at = rng.pick(&rows);
            more_rows(rng, sheet, at);
        }
    }),
    way(5, "a 33rd row of parameters", |rng, sheet| {
        let rows = sheet.rows();
        if let Some(&at) = rows.iter().find(|&&at| kind_at(sheet, at) == 4) {
            more_rows(rng, sheet, at);
        }
    }),
    way(6, "fields too few", |rng, sheet| {
        with_row(rng, sheet, |rng, kind, cells| {
            let due = numbers(kind);
            cells.truncate(1 + rng.pick(&[0, 1, due / 2, due - 1, due - 1, due - 1]));
        });
    }),
    way(6, "the last field empty", |rng, sheet| {
        let empty = rng.pick(&["", " ", "\"\"", "  \"\" "]);
        with_row(rng, sheet, |_, kind, cells| {
            cell(cells, numbers(kind), empty.to_string());
        });
    }),
    way(6, "fields too many", |rng, sheet| {
        let more = rng.pick(&["0", "x", "\" \"", "#", "\"", ".", "\r x"]);
        let empty = rng.pick(&[0, 0, 0, 1, 7]);
        with_row(rng, sheet, |_, kind, cells| {
            cells.truncate(1 + numbers(kind));
            cells.extend(std::iter::repeat_n(String::new(), empty));
            cells.push(more.to_string());
        });
    }),
    way(6, "a separator inside a number", |rng, sheet| {
        let separator = char::from(sheet.style.separator);
        let quoted = rng.one_in(2);
        with_row(rng, sheet, |rng, kind, cells| {
            let at = 1 + rng.below(numbers(kind));
            let number = format!("2{separator}5");
            let number = if quoted {
                format!("\"{number}\"")
            } else {
                number
            };
            cell(cells, at, number);
        });
    }),
    way(6, "fields of the edition", |rng, sheet| {
        let more = rng.pick(&["1", "0", "x", "\" \"", "#", "\"", "kha"]);
        let empty = rng.pick(&[0, 0, 1, 5]);
        if let Some(cells) = edition_cells(sheet) {
            cells.truncate(2);
            cells.extend(std::iter::repeat_n(String::from(" "), empty));
            cells.push(more.to_string());
        }
    }),
    way(7, "another unit", |rng, sheet| {
        let word = rng.pick(&[
            "",
            " ",
            "\"\"",
            "lands",
            "lan",
            "tree",
            "0",
            "1",
            "2",
            "\"land",
            "land\"",
            "l and",
            "'land'",
            "\" land\"",
            "\"trees \"",
            "ha",
            "landtrees",
            "tr\u{e9}es",
            "land.",
            "#land",
            "tree\u{17f}",
            "x",
        ]);
        with_stock(rng, sheet, |_, cells| {
            cell(cells, 1 + UNIT_CODE, word.to_string())
        });
    }),
    way(8, "a sign", |rng, sheet| {
        let signs = ["-", "+", "- ", "\u{2212}", "--"];
        change(rng, sheet, |rng, number, _| {
            rng.pick(&signs).to_string() + number
        });
    }),
    way(8, "an exponent", |rng, sheet| {
        let ends = ["e0", "E0", "e", "e+1", "E-2", "d0"];
        change(rng, sheet, |rng, number, _| {
            number.to_string() + rng.pick(&ends)
        });
    }),
    way(8, "a percent", |rng, sheet| {
        let ends = ["%", " %", "\u{2030}"];
        change(rng, sheet, |rng, number, _| {
            number.to_string() + rng.pick(&ends)
        });
    }),
    way(8, "no field", |rng, sheet| {
        // The last one would be a field too few.
        let empty = rng.pick(&["", " ", "\"\"", "\" \"", " \"\"  "]);
        with_row(rng, sheet, |rng, kind, cells| {
            let mut at = 1 + rng.below(numbers(kind) - 1);
            if kind == 2 && at == 1 + UNIT_CODE {
                at = 1;
            }
            cell(cells, at, empty.to_string());
        });
    }),
    way(8, "two marks", |rng, sheet| {
        let ends = [".0", ".5", "..5", ".1.2"];
        change(rng, sheet, |rng, number, _| {
            let number = number.replace(',', ".");
            match number.contains('.') {
                true => number + rng.pick(&ends),
                false => number + rng.pick(&["..5", ".5.5", ".1."]),
            }
        });
    }),
    way(8, "no digit before the mark", |rng, sheet| {
        let numbers = [".5", ".0", ".", ".00", ".x"];
        change(rng, sheet, |rng, _, _| rng.pick(&numbers).to_string());
    }),
    way(8, "no digit behind the mark", |rng, sheet| {
        let numbers = ["5.", "0.", "12345.", "1. ", "1.x"];
        change(rng, sheet, |rng, _, _| {
            rng.pick(&numbers).trim_end().to_string()
        });
    }),
    way(8, "thousands", |rng, sheet| {
        let comma = sheet.style.separator != b',';
        let numbers = ["1 234", "1'234", "1.234.567", "1\u{a0}234", "1_234"];
        let with_commas = ["1,234,567", "1,234.5", "1.234,5", "1,2,3"];
        change(rng, sheet, |rng, _, _| match comma && rng.one_in(2) {
            true => rng.pick(&with_commas).to_string(),
            false => rng.pick(&numbers).to_string(),
        });
    }),
    way(8, "letters and others", |rng, sheet| {
        let numbers = [
            "x", "one", "NaN", "inf", "0x10", "1h", "1 1", "1/2", "#1", "\u{661}", "1\r", "\r",
            "\0", "1\0", "n/a", "-", "\u{bd}", "1:2", "=1", "land", "O", "l",
        ];
        change(rng, sheet, |rng, _, _| {
            rng.pick(&numbers).to_string() + " x"
        });
    }),
    way(8, "quotes", |rng, sheet| {
        let numbers = [
            "\"1",
            "1\"",
            "\"\"1\"\"",
            "\" 1\"",
            "\"1 \"",
            "\"",
            "'1'",
            "1\"1",
        ];
        change_plain(rng, sheet, |rng, _| rng.pick(&numbers).to_string());
    }),
    way(9, "a decimal too many", |rng, sheet| {
        change(rng, sheet, |rng, _, decimals| {
            let more = 1 + rng.pick(&[0, 0, 0, 1, 5, 40]);
            let zeros = "0".repeat(decimals + more - 1);
            let whole = rng.pick(&["0", "2", "007", "99999999999999999999"]);
            format!("{whole}.{zeros}{}", rng.pick(&[0, 0, 1, 5, 9]))
        });
    }),
    way(9, "decimals of trees and of land", |rng, sheet| {
        with_stock(rng, sheet, |rng, cells| {
            let (unit, at, number) = rng.pick(&[
                ("trees", 3, "12.00"),
                ("trees", 3, "12.0"),
                ("trees", 2, "0.00250"),
                ("land", 2, "0.0025"),
                ("land", 2, "2.500"),
                ("land", 3, "12.000"),
            ]);
            cell(cells, 1 + UNIT_CODE, unit.to_string());
            // Without decimals, which would be at fault before.
            for other in 2..4 {
                cell(cells, 1 + other, "1".to_string());
            }
            cell(cells, 1 + at, number.to_string());
        });
    }),
    way(10, "one unit too many", |rng, sheet| {
        change(rng, sheet, |_, _, decimals| wide(1 << 32, decimals));
    }),
    way(10, "more units", |rng, sheet| {
        change(rng, sheet, |rng, _, decimals| {
            let any = (1 << 32) + u128::from(rng.draw());
            let units = rng.pick(&[
                (1 << 32) + 1,
                1 << 33,
                10_000_000_000,
                (1 << 63) + 7,
                1 << 64,
                (1 << 64) + 1,
                (1 << 96) + 1_000,
                u128::MAX,
                any,
                any,
            ]);
            wide(units, decimals)
        });
    }),
    way(10, "too many by decimals that are missing", |rng, sheet| {
        change(rng, sheet, |rng, _, decimals| {
            let kept = rng.below(decimals + 1);
            let tens = 10u128.pow((decimals - kept) as u32);
            // The least number that is too large without the other decimals.
            wide((1u128 << 32).div_ceil(tens), kept)
        });
    }),
    way(10, "many digits", |rng, sheet| {
        change(rng, sheet, |rng, _, _| {
            "9".repeat(rng.pick(&[14, 20, 39, 400]))
        });
    }),
    way(10, "zeros before too many", |rng, sheet| {
        change(rng, sheet, |rng, _, decimals| {
            "0".repeat(rng.pick(&[1, 9, 60])) + &wide(1 << 32, decimals)
        });
    }),
];

/// So many units with these decimals, however many they are.
fn wide(units: u128, decimals: usize) -> String {
    let mut digits = format!("{units:0>width$}", width = decimals + 1);
    if decimals > 0 {
        digits.insert(digits.len() - decimals, '.');
    }
    digits
}

fn numbers(kind: u8) -> usize {
    KINDS[usize::from(kind) - 1].numbers
}

fn kind_at(sheet: &Sheet, at: usize) -> u8 {
    match &sheet.lines[at] {
        Line::Row(kind, _) => *kind,
        _ => 0,
    }
}

fn edition_cells(sheet: &mut Sheet) -> Option<&mut Vec<String>> {
    let at = sheet.edition_at()?;
    match &mut sheet.lines[at] {
        Line::Edition(cells) => Some(cells),
        _ => None,
    }
}

fn edition_cell(sheet: &mut Sheet, at: usize, new: String) {
    if let Some(cells) = edition_cells(sheet) {
        cell(cells, at, new);
    }
}

/// Puts a cell into its place, which another fault may have taken away.
fn cell(cells: &mut Vec<String>, at: usize, new: String) {
    while cells.len() <= at {
        cells.push(String::from("0"));
    }
    cells[at] = new;
}

/// Changes the cells of a row, whose kind is told.
fn with_row(rng: &mut Rng, sheet: &mut Sheet, act: impl FnOnce(&mut Rng, u8, &mut Vec<String>)) {
    let rows = sheet.rows();
    if rows.is_empty() {
        return;
    }
    let at = match sheet.pinned {
        Some(nth) => rows[nth % rows.len()],
        None => rng.pick(&rows),
    };
    if let Line::Row(kind, cells) = &mut sheet.lines[at] {
        act(rng, *kind, cells);
    }
}

/// The same of a stock row, which is put in where there is none.
fn with_stock(rng: &mut Rng, sheet: &mut Sheet, act: impl FnOnce(&mut Rng, &mut Vec<String>)) {
    let rows = sheet.rows();
    let stock: Vec<usize> = rows
        .iter()
        .copied()
        .filter(|&at| kind_at(sheet, at) == 2)
        .collect();
    let at = if stock.is_empty() {
        let later = rows.iter().copied().find(|&at| kind_at(sheet, at) > 2);
        let Some(at) = later else { return };
        let cells = sheet.row(rng, 2, &[1, 0, 0, 0, 0]);
        sheet.lines.insert(at, Line::Row(2, cells));
        at
    } else {
        rng.pick(&stock)
    };
    if let Line::Row(_, cells) = &mut sheet.lines[at] {
        act(rng, cells);
    }
}

/// Changes a number of a row, told what it is and how many decimals it may have.
fn change(rng: &mut Rng, sheet: &mut Sheet, act: impl FnOnce(&mut Rng, &str, usize) -> String) {
    let (comma, dressed) = (sheet.style.comma, sheet.style.dressed);
    let tabs = sheet.style.separator != b'\t';
    with_row(rng, sheet, |rng, kind, cells| {
        let (at, decimals) = any_number(rng, kind, cells);
        let blank = |letter: char| letter == ' ' || letter == '\t' || letter == '"';
        let number = cells
            .get(at)
            .map_or("0", |number| number.trim_matches(blank));
        let number = act(rng, &number.replace(',', "."), decimals);
        let number = match comma && rng.one_in(2) {
            true => number.replacen('.', ",", 1),
            false => number,
        };
        let number = match rng.below(6) {
            0 if dressed => format!("\"{number}\""),
            1 if dressed && tabs => format!("\t{number} "),
            2 if dressed => format!(" {number} "),
            _ => number,
        };
        cell(cells, at, number);
    });
}

/// The same without anything around it.
fn change_plain(rng: &mut Rng, sheet: &mut Sheet, act: impl FnOnce(&mut Rng, usize) -> String) {
    with_row(rng, sheet, |rng, kind, cells| {
        let (at, decimals) = any_number(rng, kind, cells);
        let number = act(rng, decimals);
        cell(cells, at, number);
    });
}

/// The place of a cell with a number in a row of this kind, and its decimals.
fn any_number(rng: &mut Rng, kind: u8, cells: &[String]) -> (usize, usize) {
    let unit = cells.get(1 + UNIT_CODE).map(|cell| cell.to_lowercase());
    let is_trees = unit.is_some_and(|unit| unit.contains("trees"));
    let before = [if is_trees { TREES } else { 0 }; 15];
    loop {
        let field = rng.below(numbers(kind));
        if let Spelling::Decimals(decimals) = spelling(kind, field, &before[..field]) {
            return (1 + field, decimals);
        }
    }
}

/// Puts a line behind the edition line, anywhere.
fn put_in(rng: &mut Rng, sheet: &mut Sheet, line: Line) {
    if let Some(first) = sheet.edition_at() {
        let at = first + 1 + rng.below(sheet.lines.len() - first);
        sheet.lines.insert(at, line);
    }
}

/// A row behind one of a higher kind.
fn lower_behind(rng: &mut Rng, sheet: &mut Sheet) {
    let rows = sheet.rows();
    let higher: Vec<usize> = rows
        .into_iter()
        .filter(|&at| kind_at(sheet, at) > 1)
        .collect();
    if higher.is_empty() {
        return;
    }
    let at = rng.pick(&higher);
    let kind = 1 + rng.below(usize::from(kind_at(sheet, at)) - 1) as u8;
    let mut cells = sheet.row(rng, kind, &[1; 15][..numbers(kind)]);
    if rng.one_in(3) {
        cells.truncate(1 + rng.below(cells.len()));
    }
    sheet.lines.insert(at + 1, Line::Row(kind, cells));
}

/// Rows of the kind at this place until there are 33, or a few more.
fn more_rows(rng: &mut Rng, sheet: &mut Sheet, at: usize) {
    let kind = kind_at(sheet, at);
    let rows = sheet.rows().into_iter();
    let count = rows.filter(|&row| kind_at(sheet, row) == kind).count();
    let row = sheet.lines[at].clone();
    let more = (33 + rng.pick(&[0, 0, 0, 1, 7])).max(count + 1) - count;
    for _ in 0..more {
        sheet.lines.insert(at, row.clone());
    }
    // The 33rd itself may be at fault too.
    if rng.one_in(3) {
        let rows = sheet.rows().into_iter();
        let last = rows.filter(|&row| kind_at(sheet, row) == kind).nth(32);
        if let Some(Line::Row(_, cells)) = last.map(|at| &mut sheet.lines[at]) {
            match rng.one_in(2) {
                true => cells.truncate(1),
                false => cell(cells, 1, "x".to_string()),
            }
        }
    }
}
