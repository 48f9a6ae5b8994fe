//! Table 5-2 on board (02, §6) by the second program's own reading of docs/TABLE52.csv, and the workbook's default ratios (01).

/// The table as it is kept beside the documents.
const TEXT: &str = include_str!("../../docs/TABLE52.csv");

pub const COUNTRIES: usize = 90;
pub const ZONES: usize = 6;
/// What C lends for an entry: two elements for each figure, and the mark.
pub const TABLE52_ROOM: usize = 7;

/// The areas of 1980 and of 1990 and the rate, each if it is given, and the mark.
#[derive(Clone, Copy, Debug, Default, PartialEq, Eq)]
pub struct Entry {
    pub figures: [Option<i32>; 3],
    pub marked: bool,
}

/// The entries by country and zone.
pub struct Table(Vec<Entry>);

impl Table {
    /// "each numbered from 0 in the document's order without totals": every line names its two numbers, and they are counted along.
    pub fn read() -> Self {
        let lines = TEXT.lines().skip(1).enumerate();
        let table = Table(lines.map(|(nth, line)| entry(nth, line)).collect());
        assert_eq!(table.0.len(), COUNTRIES * ZONES);
        table
    }

    pub fn entries(&self) -> &[Entry] {
        &self.0
    }

    /// As C asks for an entry: 0 and it at the front of `room`; 1 or 2 for a country or a zone "off the table, in that order"; last 9,000.
    pub fn look_up(&self, country: u32, zone: u32, room: &mut [i32]) -> u32 {
        let [country, zone] = [country, zone].map(|number| number as usize);
        match room.get_mut(..TABLE52_ROOM) {
            _ if country >= COUNTRIES => 1,
            _ if zone >= ZONES => 2,
            None => 9000,
            Some(front) => {
                front.copy_from_slice(&self.0[ZONES * country + zone].elements());
                0
            }
        }
    }
}

impl Entry {
    /// 1 and a figure that is given, 0 and 0 for one that isn't; then the mark.
    fn elements(self) -> [i32; TABLE52_ROOM] {
        let mut elements = [0; TABLE52_ROOM];
        for (pair, figure) in elements.chunks_mut(2).zip(self.figures) {
            if let Some(figure) = figure {
                pair.copy_from_slice(&[1, figure]);
            }
        }
        elements[6] = self.marked.into();
        elements
    }
}

/// "A blank rate beside two equal areas is zero; every other blank is 'not given' and never zero."
fn entry(nth: usize, line: &str) -> Entry {
    let words: Vec<&str> = line.split(',').collect();
    let [country, _, zone, _, before, after, rate, marked] = words[..] else {
        panic!("a line of the table has eight columns: {line}");
    };
    let numbers = [country, zone].map(|word| word.parse::<usize>());
    assert_eq!(numbers, [Ok(nth / ZONES), Ok(nth % ZONES)], "{line}");
    let figure = |word: &str| match word {
        "" => None,
        _ => Some(word.parse().expect("a whole number of tenths")),
    };
    let mut figures = [before, after, rate].map(figure);
    if let [Some(before), Some(after), None] = figures {
        figures[2] = (before == after).then_some(0);
    }
    let marked = match marked {
        "yes" => true,
        "no" => false,
        _ => panic!("a mark is yes or no: {line}"),
    };
    Entry { figures, marked }
}

/// "N 500, CH4 12, CO 60, N/C 10, N2O 7, NOx 121", as C asks for them.
pub const DEFAULTS: [u32; 6] = [500, 12, 60, 10, 7, 121];

pub fn defaults(room: &mut [u32]) -> u32 {
    match room.get_mut(..DEFAULTS.len()) {
        None => 9000,
        Some(front) => {
            front.copy_from_slice(&DEFAULTS);
            0
        }
    }
}

#[cfg(test)]
mod tests {
    use super::*;

    /// "ten times the rate differs from the fall in area by at most 6 tenths", but for entries that are marked.
    #[test]
    fn the_rule_holds_where_there_is_no_mark() {
        for (nth, entry) in Table::read().entries().iter().enumerate() {
            let [Some(before), Some(after), Some(rate)] = entry.figures else {
                assert!(!entry.marked, "entry {nth}");
                continue;
            };
            let off = (10 * rate - (before - after)).abs();
            assert_eq!(entry.marked, off > 6, "entry {nth}: {entry:?}");
        }
    }

    /// By hand from document 001.
    #[test]
    fn entries_as_they_are_printed() {
        let table = Table::read();
        for (country, zone, due) in [
            (0, 0, [0, 0, 0, 0, 0, 0, 0]),
            (0, 1, [1, 31233, 1, 29045, 1, 219, 0]),
            (5, 0, [1, 7063, 1, 7063, 1, 0, 0]),
            (70, 2, [1, 36, 1, 55, 1, -2, 0]),
            (72, 5, [1, 240, 0, 0, 1, 24, 0]),
            (89, 5, [1, 259, 1, 178, 1, 8, 0]),
        ] {
            let mut room = [77; 8];
            assert_eq!(table.look_up(country, zone, &mut room), 0);
            assert_eq!((&room[..7], room[7]), (&due[..], 77));
        }
    }

    #[test]
    fn refusals_come_in_order() {
        let table = Table::read();
        for (country, zone, lent, due) in [
            (90, 6, 0, 1),
            (u32::MAX, 0, 9, 1),
            (89, 6, 0, 2),
            (0, u32::MAX, 9, 2),
            (89, 5, 6, 9000),
            (0, 0, 0, 9000),
            (89, 5, 7, 0),
        ] {
            let mut room = [77; 9];
            let answer = table.look_up(country, zone, &mut room[..lent]);
            assert_eq!(answer, due, "{country} {zone} {lent}");
            assert_eq!(room == [77; 9], due != 0);
        }
        let mut room = [7; 8];
        assert_eq!(defaults(&mut room[..5]), 9000);
        assert_eq!(room, [7; 8]);
        assert_eq!(defaults(&mut room), 0);
        assert_eq!(room, [500, 12, 60, 10, 7, 121, 7, 7]);
    }
}
