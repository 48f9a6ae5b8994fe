//! What came among the texts, and how often it has to come.

use crate::cells::{behind_blanks, is_passed_over, lines};
use crate::coverage::{Asked, Counters, Coverage, Due};
use crate::fault::{Fault, Sort, WORDS};
use crate::kinds::{EDITIONS, KINDS};
use crate::texts::{TextCase, WAYS};
use crate::typed::{Typed, MOST_BYTES};

/// Of each fault, of each number of writing, and of each way that a fault comes about.
const FAULTS: usize = 500;
const NUMBERS: usize = 200;
const WAY: usize = 100;

/// Writing's numbers but for 10, in the order in which they are tried, and 10 by its places.
const OF_ROWS: [u32; 6] = [5, 6, 14, 7, 12, 13];
const PLACES: usize = KINDS.len() + 1;
/// More rows of these than there may be are a fault of the text, and none are needed.
const NO_PLACES: [usize; 3] = [1, 2, 3];

/// The rooms of a call that packs or unpacks, as they are counted.
pub const ROOMS: [&str; 5] = [
    "exact",
    "longer",
    "short by one",
    "no size",
    "short by more",
];

/// The rooms of a reason, as they are counted.
pub const REASON_ROOMS: [&str; 4] = ["exact", "short by one", "empty", "longer"];

const SEPARATORS: [(u8, &str); 3] = [(b',', "commas"), (b';', "semicolons"), (b'\t', "tabs")];

/// What a text that packs can look like.
type Looks = (&'static str, fn(&TextCase, &Typed) -> bool);
const LOOKS: [Looks; 15] = [
    ("a byte order mark", |case, _| {
        case.bytes.starts_with(b"\xEF\xBB\xBF")
    }),
    ("CRLF alone", |case, _| {
        ends(case, true) && !ends(case, false)
    }),
    ("LF alone", |case, _| ends(case, false) && !ends(case, true)),
    ("both ends", |case, _| ends(case, true) && ends(case, false)),
    ("a last line without its end", |case, _| {
        !case.bytes.ends_with(b"\n")
    }),
    ("quotes", |case, _| case.bytes.contains(&b'"')),
    ("capital letters", |case, _| {
        case.bytes
            .windows(2)
            .any(|pair| pair == b"AR" || pair == b"IO")
    }),
    ("decimal commas", |case, typed| {
        typed.separator != b',' && case.style.is_some_and(|style| style.comma)
    }),
    ("notes", |case, _| case.bytes.contains(&b'#')),
    ("edition 1", |_, typed| typed.edition == 1),
    ("edition 2", |_, typed| typed.edition == 2),
    ("edition 3", |_, typed| typed.edition == 3),
    ("32 rows of each kind with ids", |_, typed| {
        let kinds = KINDS.iter().zip(&typed.lines);
        kinds
            .filter(|(kind, _)| kind.since <= typed.edition)
            .all(|(kind, lines)| lines.len() == kind.most_rows)
    }),
    ("131,072 bytes", |case, _| case.bytes.len() == MOST_BYTES),
    ("a tab before the edition", |case, _| tab_before_edition(case)),
];

fn tab_before_edition(case: &TextCase) -> bool {
    let edition = lines(&case.bytes).find(|(_, line)| !is_passed_over(line, None));
    edition.is_some_and(|(_, line)| {
        let behind = behind_blanks(line, None);
        line[..line.len() - behind.len()].contains(&b'\t')
    })
}

/// Whether a line ends so, with CRLF or with LF alone.
fn ends(case: &TextCase, crlf: bool) -> bool {
    let mut ends = case.bytes.iter().enumerate();
    ends.any(|(at, &byte)| byte == b'\n' && (at > 0 && case.bytes[at - 1] == b'\r') == crlf)
}

/// Numbers of returns that are refused.
const OF_RETURNS: [u32; 10] = [1, 2, 3, 4, 5, 6, 7, 12, 13, 14];

pub struct Tally {
    pub coverage: Coverage,
    faults: Counters,
    /// Fault 6 of the edition line, and of a row with too few and too many fields.
    fields: Counters,
    ways: Counters,
    numbers: Counters,
    places: Counters,
    wide: Counters,
    accepted: Counters,
    separators: Counters,
    looks: Counters,
    lengths: Counters,
    packs: Counters,
    unpacks: Counters,
    reasons: Counters,
    round_trips: Counters,
    returns: Counters,
}

impl Tally {
    pub fn new() -> Self {
        let mut coverage = Coverage::default();
        let faults = (1..).zip(WORDS);
        let faults = faults.map(|(number, word)| format!("fault {number} {word}"));
        let faults = coverage.add(Due::Times(FAULTS), faults);
        let fields = ["of the edition line", "too few", "too many"];
        let fields = fields.map(|sort| format!("fault 6 fields, {sort}"));
        let fields = coverage.add(Due::Times(WAY), fields);
        let ways = WAYS.iter();
        let ways = ways.map(|way| format!("fault {} alone, {}", way.number, way.name));
        let ways = coverage.add(Due::Times(WAY), ways);
        let often = Due::Times(NUMBERS);
        let numbers = OF_ROWS.map(|number| format!("refused {number}"));
        let numbers = coverage.add(often, numbers);
        let places = coverage.add(Due::Told, [""; 0]);
        for place in 0..PLACES {
            let due = match NO_PLACES.contains(&place) {
                true => Due::Never,
                false => often,
            };
            coverage.add(due, [format!("refused 10, place {place}")]);
        }
        let looks = LOOKS.map(|(name, _)| format!("texts that pack, {name}"));
        let separators = SEPARATORS.map(|(_, name)| format!("texts that pack, {name} between"));
        let returns = OF_RETURNS.map(|number| format!("returns refused {number}"));
        Tally {
            faults,
            fields,
            ways,
            numbers,
            places,
            wide: coverage.add(often, ["refused 6, a value above its bytes"]),
            accepted: coverage.add(Due::Times(20_000), ["texts that pack"]),
            separators: coverage.add(Due::Times(5_000), separators),
            looks: coverage.add(often, looks),
            lengths: coverage.add(often, ["texts of 131,072 bytes", "of 131,073"]),
            packs: coverage.add(often, ROOMS.map(|room| format!("packing, room {room}"))),
            unpacks: coverage.add(often, ROOMS.map(|room| format!("unpacking, room {room}"))),
            reasons: coverage.add(
                often,
                REASON_ROOMS.map(|room| format!("reasons, room {room}")),
            ),
            round_trips: coverage.add(often, ["returns unpacked and packed again"]),
            returns: {
                let first = coverage.add(often, ["returns accepted"]);
                coverage.add(often, returns);
                first
            },
            coverage,
        }
    }

    pub fn note_text(&mut self, case: &TextCase, read: &Result<Typed, Fault>, answer: u32) {
        let coverage = &mut self.coverage;
        if let Some(nth) = [0, 1]
            .iter()
            .position(|more| case.bytes.len() == MOST_BYTES + more)
        {
            coverage.count(self.lengths, nth);
        }
        match read {
            Err(fault) => {
                coverage.count(self.faults, fault.sort.number() as usize - 1);
                if let Sort::Fields { due, found } = fault.sort {
                    let sort = if due == 1 {
                        0
                    } else {
                        1 + usize::from(found > due)
                    };
                    coverage.count(self.fields, sort);
                }
                let way = case.way;
                if let Some(way) = way.filter(|&way| WAYS[way].number == fault.sort.number()) {
                    coverage.count(self.ways, way);
                }
            }
            Ok(typed) if answer == 0 => {
                coverage.count(self.accepted, 0);
                let separator = |(byte, _): &(u8, &str)| *byte == typed.separator;
                if let Some(nth) = SEPARATORS.iter().position(separator) {
                    coverage.count(self.separators, nth);
                }
                for (nth, (_, holds)) in LOOKS.iter().enumerate() {
                    if holds(case, typed) {
                        coverage.count(self.looks, nth);
                    }
                }
            }
            Ok(typed) => {
                let (number, place) = (answer / 1000, (answer % 1000) as usize);
                match OF_ROWS.iter().position(|&other| other == number) {
                    Some(nth) => coverage.count(self.numbers, nth),
                    None => coverage.count(self.places, place),
                }
                if number == 6 && is_wide(typed) {
                    coverage.count(self.wide, 0);
                }
            }
        }
    }

    pub fn note_pack(&mut self, room: usize) {
        self.coverage.count(self.packs, room);
    }

    pub fn note_unpack(&mut self, room: usize) {
        self.coverage.count(self.unpacks, room);
    }

    pub fn note_reason(&mut self, room: usize) {
        self.coverage.count(self.reasons, room);
    }

    pub fn note_round_trip(&mut self) {
        self.coverage.count(self.round_trips, 0);
    }

    pub fn note_return(&mut self, answer: u32) {
        let nth = match answer {
            0 => Some(0),
            _ => OF_RETURNS
                .iter()
                .position(|&number| number == answer / 1000)
                .map(|nth| nth + 1),
        };
        if let Some(nth) = nth {
            self.coverage.count(self.returns, nth);
        }
    }

    pub fn reached(&self, made: usize, usual: bool) -> bool {
        self.coverage.reached(Asked {
            inputs: made,
            shares: usual,
            counts: usual,
        })
    }
}

/// Whether a row has a value that its bytes don't hold.
fn is_wide(typed: &Typed) -> bool {
    debug_assert!(EDITIONS.contains(&typed.edition));
    let mut kinds = KINDS.iter().zip(&typed.lists);
    kinds.any(|(kind, list)| {
        let mut fields = kind.fields.iter().cycle().zip(list);
        fields.any(|(field, &value)| u64::from(value) >> (8 * field.bytes) > 0)
    })
}
