//! What a text of rows can be at fault with (rows as text, rules 1 to 9 and 12).

use crate::kinds::KINDS;
use crate::text::Text;

/// The fault of a text and its line, from 1 on; 0 where it is no line's.
#[derive(Clone, Copy, Debug, PartialEq, Eq)]
pub struct Fault {
    pub line: u32,
    pub sort: Sort,
}

/// The sorts of faults, in the order in which a line is tried for them.
#[derive(Clone, Copy, Debug, PartialEq, Eq)]
pub enum Sort {
    Long,
    Edition,
    Kind,
    Order,
    Rows,
    /// How many fields are due, and how many there are.
    Fields {
        due: usize,
        found: usize,
    },
    Unit(At),
    Number(At),
    Decimals(At),
    Large(At),
}

/// A field by its kind of row, from 1 on, and its place, from 0 on.
#[derive(Clone, Copy, Debug, PartialEq, Eq)]
pub struct At {
    pub kind: u8,
    pub field: usize,
}

/// The words in the order of the numbers, from 1 on.
pub const WORDS: [&str; 10] = [
    "long", "edition", "kind", "order", "rows", "fields", "unit", "number", "decimals", "large",
];

impl Sort {
    /// As C gets it.
    pub fn number(self) -> u32 {
        match self {
            Sort::Long => 1,
            Sort::Edition => 2,
            Sort::Kind => 3,
            Sort::Order => 4,
            Sort::Rows => 5,
            Sort::Fields { .. } => 6,
            Sort::Unit(_) => 7,
            Sort::Number(_) => 8,
            Sort::Decimals(_) => 9,
            Sort::Large(_) => 10,
        }
    }

    pub fn word(self) -> &'static str {
        WORDS[self.number() as usize - 1]
    }
}

impl Fault {
    /// "`refused line N WORD`, then for 6 `due D` and `found F`, for 7 to 10 `field I` [..]
    /// and `field_name NAME`"
    pub fn print(self, text: &mut Text) {
        let line = format!("{} ", self.line);
        text.word_line(&format!("refused line {line}"), self.sort.word());
        match self.sort {
            Sort::Fields { due, found } => {
                text.line("due ", due as u64);
                text.line("found ", found as u64);
            }
            Sort::Unit(at) | Sort::Number(at) | Sort::Decimals(at) | Sort::Large(at) => {
                let kind = &KINDS[usize::from(at.kind) - 1];
                text.line("field ", at.field as u64);
                text.word_line("field_name ", kind.fields[at.field].name);
            }
            _ => {}
        }
    }
}

#[cfg(test)]
mod tests {
    use super::*;

    /// Each to the letter.
    #[test]
    fn lines_by_hand() {
        let at = At { kind: 1, field: 13 };
        let rate = At { kind: 2, field: 2 };
        let fields = Sort::Fields { due: 15, found: 0 };
        for (number, sort, due) in [
            (1, Sort::Long, "refused line 12 long\n"),
            (2, Sort::Edition, "refused line 12 edition\n"),
            (3, Sort::Kind, "refused line 12 kind\n"),
            (4, Sort::Order, "refused line 12 order\n"),
            (5, Sort::Rows, "refused line 12 rows\n"),
            (6, fields, "refused line 12 fields\ndue 15\nfound 0\n"),
            (
                7,
                Sort::Unit(At { kind: 2, field: 1 }),
                "refused line 12 unit\nfield 1\nfield_name unit_code\n",
            ),
            (
                8,
                Sort::Number(at),
                "refused line 12 number\nfield 13\nfield_name decay_fraction\n",
            ),
            (
                9,
                Sort::Decimals(rate),
                "refused line 12 decimals\nfield 2\nfield_name rate\n",
            ),
            (
                10,
                Sort::Large(At { kind: 4, field: 3 }),
                "refused line 12 large\nfield 3\nfield_name N/C\n",
            ),
        ] {
            assert_eq!(sort.number(), number);
            let mut text = Text::new();
            Fault { line: 12, sort }.print(&mut text);
            assert_eq!(text.as_bytes(), due.as_bytes());
        }
    }
}
