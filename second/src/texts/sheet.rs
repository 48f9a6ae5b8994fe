//! A text line by line, in one of the styles in which departments write.

use crate::decimal::spelled;
use crate::kinds::KINDS;
use crate::lists::{rows_of_kind, Lists};
use crate::rng::Rng;
use crate::units::{spelling, Spelling, UNIT_WORDS};

/// How lines are ended.
#[derive(Clone, Copy, Debug, PartialEq, Eq)]
pub enum End {
    Lf,
    CrLf,
    /// Line by line one or the other.
    Mixed,
}

/// What a text looks like beside its rows.
#[derive(Clone, Copy, Debug)]
pub struct Style {
    pub separator: u8,
    /// A comma as decimal mark.
    pub comma: bool,
    pub end: End,
    pub marked: bool,
    /// The last line has its end.
    pub ended: bool,
    /// Quotes, blanks, capital letters, leading zeros and decimals left out.
    pub dressed: bool,
    /// Notes and empty lines.
    pub noted: bool,
}

impl Style {
    fn drawn(rng: &mut Rng) -> Self {
        let separator = rng.pick(&[b',', b',', b';', b'\t']);
        Style {
            separator,
            comma: separator != b',' && rng.one_in(2),
            end: rng.pick(&[End::Lf, End::Lf, End::CrLf, End::Mixed]),
            marked: rng.one_in(4),
            ended: !rng.one_in(4),
            dressed: !rng.one_in(3),
            noted: rng.one_in(2),
        }
    }
}

/// A line: its cells as they are written, or one that is no row.
#[derive(Clone)]
pub enum Line {
    Plain(String),
    Edition(Vec<String>),
    /// With its kind.
    Row(u8, Vec<String>),
}

pub struct Sheet {
    pub style: Style,
    pub lines: Vec<Line>,
    /// The row that faults are brought about in, where it is always the same.
    pub pinned: Option<usize>,
}

impl Sheet {
    /// These rows in any style.
    pub fn of(rng: &mut Rng, edition: u32, lists: &Lists) -> Self {
        let mut sheet = Sheet {
            style: Style::drawn(rng),
            lines: Vec::new(),
            pinned: None,
        };
        sheet.add_others(rng);
        let cells = sheet.edition(rng, edition);
        sheet.lines.push(Line::Edition(cells));
        for kind in 1..=KINDS.len() as u8 {
            for row in rows_of_kind(lists, kind) {
                sheet.add_others(rng);
                let cells = sheet.row(rng, kind, row);
                sheet.lines.push(Line::Row(kind, cells));
            }
        }
        sheet.add_others(rng);
        sheet
    }

    /// The cells of the edition line.
    pub fn edition(&self, rng: &mut Rng, edition: u32) -> Vec<String> {
        let mut word = String::from("edition");
        let mut number = edition.to_string();
        if self.style.dressed {
            word = capitals(rng, &word);
            if rng.one_in(4) {
                word = format!("\"{word}\"");
            }
            // A tab before the word is a blank, but not where tabs separate.
            let before = blanks(rng, self.style.separator != b'\t');
            word = before + &word + &" ".repeat(rng.pick(&[0, 0, 0, 1, 3]));
            number = zeros(rng, number);
            number = self.dress(rng, &number);
        }
        let mut cells = vec![word, number];
        self.trail(rng, &mut cells);
        cells
    }

    /// The cells of a row.
    pub fn row(&self, rng: &mut Rng, kind: u8, row: &[u32]) -> Vec<String> {
        let name = KINDS[usize::from(kind) - 1].name;
        let mut cells = vec![self.word(rng, name)];
        for (field, &value) in row.iter().enumerate() {
            cells.push(match spelling(kind, field, &row[..field]) {
                Spelling::Unit => self.word(rng, UNIT_WORDS[value as usize % 2]),
                Spelling::Decimals(decimals) => self.number(rng, value, decimals),
            });
        }
        self.trail(rng, &mut cells);
        cells
    }

    pub fn word(&self, rng: &mut Rng, word: &str) -> String {
        if !self.style.dressed {
            return word.to_string();
        }
        let word = capitals(rng, word);
        self.dress(rng, &word)
    }

    /// So many units, with all decimals or without some that are zero.
    fn number(&self, rng: &mut Rng, units: u32, decimals: usize) -> String {
        let mut number = spelled(units, decimals);
        if self.style.dressed {
            while decimals > 0 && number.contains('.') && !rng.one_in(4) {
                match number.strip_suffix('0') {
                    Some(shorter) => number = shorter.to_string(),
                    None => break,
                }
                if let Some(whole) = number.strip_suffix('.') {
                    number = whole.to_string();
                }
            }
            number = zeros(rng, number);
        }
        let number = self.marked(rng, &number);
        if self.style.dressed {
            return self.dress(rng, &number);
        }
        number
    }

    /// With the decimal mark of the style, or now and then with either.
    pub fn marked(&self, rng: &mut Rng, number: &str) -> String {
        let comma = self.style.comma && !rng.one_in(8);
        number.replace('.', if comma { "," } else { "." })
    }

    /// Quotes and blanks around a cell, or not.
    pub fn dress(&self, rng: &mut Rng, cell: &str) -> String {
        let tabs = self.style.separator != b'\t';
        match rng.below(6) {
            0 => format!("\"{cell}\""),
            1 => blanks(rng, tabs) + cell + &blanks(rng, tabs),
            2 => format!("{}\"{cell}\"{}", blanks(rng, tabs), blanks(rng, tabs)),
            _ => cell.to_string(),
        }
    }

    /// Empty cells behind the last one.
    fn trail(&self, rng: &mut Rng, cells: &mut Vec<String>) {
        if self.style.dressed && rng.one_in(4) {
            for _ in 0..1 + rng.below(3) {
                cells.push(rng.pick(&["", "", " ", "\"\"", " \"\" "]).to_string());
            }
        }
    }

    fn add_others(&mut self, rng: &mut Rng) {
        while self.style.noted && rng.one_in(5) {
            let line = self.other(rng);
            self.lines.push(Line::Plain(line));
        }
    }

    /// A line that is passed over. A tab before a note is a blank where it is no separator,
    /// and before the separator is known.
    fn other(&self, rng: &mut Rng) -> String {
        let notes = [
            "\t# behind a tab",
            " \t \"# behind a tab",
            "",
            "",
            "  ",
            ",,,,",
            ";;;",
            "\t\t",
            " ,;\t ,",
            "#",
            "# a note, of 1; 2\tand 3",
            "   # stock,1,land,2,3,4",
            "\"# quoted, as a spreadsheet does\",,",
            " \"#",
            "#edition,9",
            "# caf\u{e9}\r and more",
        ];
        let tabs = self.style.separator != b'\t' || self.edition_at().is_none();
        rng.pick(if tabs { &notes[..] } else { &notes[2..] })
            .to_string()
    }

    /// The places of the rows among the lines.
    pub fn rows(&self) -> Vec<usize> {
        let rows = self.lines.iter().enumerate();
        let rows = rows.filter(|(_, line)| matches!(line, Line::Row(..)));
        rows.map(|(at, _)| at).collect()
    }

    pub fn edition_at(&self) -> Option<usize> {
        let mut lines = self.lines.iter();
        lines.position(|line| matches!(line, Line::Edition(_)))
    }

    pub fn bytes(&self, rng: &mut Rng) -> Vec<u8> {
        let mut bytes = Vec::new();
        if self.style.marked {
            bytes.extend([0xEF, 0xBB, 0xBF]);
        }
        for (nth, line) in self.lines.iter().enumerate() {
            match line {
                Line::Plain(line) => bytes.extend(line.as_bytes()),
                Line::Edition(cells) | Line::Row(_, cells) => {
                    for (nth, cell) in cells.iter().enumerate() {
                        if nth > 0 {
                            bytes.push(self.style.separator);
                        }
                        bytes.extend(cell.as_bytes());
                    }
                }
            }
            if self.style.ended || nth + 1 < self.lines.len() {
                let crlf = match self.style.end {
                    End::Lf => false,
                    End::CrLf => true,
                    End::Mixed => rng.one_in(2),
                };
                bytes.extend(if crlf { &b"\r\n"[..] } else { b"\n" });
            }
        }
        bytes
    }
}

fn capitals(rng: &mut Rng, word: &str) -> String {
    match rng.below(4) {
        0 => word.to_uppercase(),
        1 => {
            let letters = word.chars();
            letters
                .map(|letter| match rng.one_in(2) {
                    true => letter.to_ascii_uppercase(),
                    false => letter,
                })
                .collect()
        }
        _ => word.to_string(),
    }
}

fn zeros(rng: &mut Rng, number: String) -> String {
    match rng.below(8) {
        0 => "0".repeat(1 + rng.below(3)) + &number,
        1 if rng.one_in(8) => "0".repeat(40) + &number,
        _ => number,
    }
}

fn blanks(rng: &mut Rng, tabs: bool) -> String {
    let count = rng.pick(&[0, 1, 1, 2]);
    let tab = |rng: &mut Rng| tabs && rng.one_in(3);
    (0..count)
        .map(|_| if tab(rng) { '\t' } else { ' ' })
        .collect()
}
