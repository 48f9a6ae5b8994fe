//! What is counted of the pairs, so that none of their sorts is left to chance.

use crate::run::Found;
use second::coverage::{Counters, Coverage, Due};
use second::kinds::KINDS;
use second::lists::Lists;
use second::make::ALL_EDITIONS;
use second::raised::{has_largest, has_thinner, only_raised, Pair, WAYS};

pub const SUBTOTALS: [&str; 3] = ["on-site", "off-site", "decay"];
/// The editions of a return.
const EDITIONS: usize = ALL_EDITIONS.len();
/// Of each sort of pairs that are common, and of each that is rare.
const OFTEN: Due = Due::Times(1_000);
const SOME: Due = Due::Times(100);

pub struct Tally {
    pub coverage: Coverage,
    ways: Counters,
    /// Of the first version and the second.
    editions: Counters,
    /// In neither version, in the first and in both.
    thinner: Counters,
    /// The second has a row that nothing more can be cleared in.
    largest: Counters,
    /// For each field, the pairs in which it alone has more.
    raised: Counters,
    /// For each subtotal, the same and higher.
    higher: Counters,
    /// For each subtotal, the exact total higher and the double the same.
    rounded_away: Counters,
    /// For each field, the pairs that it breaks, and those of them that fall.
    broken: Counters,
    fallen_by: Counters,
    /// For each subtotal, the broken pairs that fall by the double, and by the exact total.
    fallen: Counters,
}

impl Tally {
    pub fn new() -> Self {
        let mut coverage = Coverage::default();
        let fields = |word: &'static str| {
            let fields = KINDS[0].fields.iter().skip(1);
            fields.map(move |field| format!("{word} {}", field.name))
        };
        let each = |sorts: [&'static str; 2]| {
            SUBTOTALS
                .iter()
                .flat_map(move |name| sorts.map(|sort| format!("{name} {sort}")))
        };
        let editions = (1..=EDITIONS).flat_map(|a| (1..=EDITIONS).map(move |b| [a, b]));
        let thinner = ["neither version", "the first", "both"];
        let rounded_away = SUBTOTALS.map(|name| format!("{name} higher, the double the same"));
        let fallen = each(["fallen by the double", "fallen by the exact total"]);
        Tally {
            ways: coverage.add(OFTEN, WAYS.map(|way| format!("more cleared, {way:?}"))),
            editions: coverage.add(
                OFTEN,
                editions.map(|[a, b]| format!("editions {a} and {b}")),
            ),
            thinner: coverage.add(OFTEN, thinner.map(|sort| format!("thinner in {sort}"))),
            largest: coverage.add(OFTEN, ["a row at its limits"]),
            raised: coverage.add(OFTEN, fields("more in one field,")),
            higher: coverage.add(OFTEN, each(["the same", "higher"])),
            rounded_away: coverage.add(SOME, rounded_away),
            broken: coverage.add(OFTEN, fields("broken in")),
            fallen_by: coverage.add(SOME, fields("fallen by")),
            fallen: coverage.add(OFTEN, fallen.map(|name| format!("broken, {name}"))),
            coverage,
        }
    }

    /// A pair of which the premise holds, with its rows and what the first program says.
    pub fn note_held(&mut self, pair: &Pair, lists: &[Lists; 2], found: [&Found; 2]) {
        let coverage = &mut self.coverage;
        let way = WAYS.iter().position(|&way| way == pair.way);
        coverage.count(self.ways, way.expect("one of the ways"));
        let [first, second] = [&pair.first, &pair.second].map(|bytes| usize::from(bytes[6]) - 1);
        coverage.count(self.editions, EDITIONS * first + second);
        let thinner = lists.iter().filter(|lists| has_thinner(lists));
        coverage.count(self.thinner, thinner.count());
        if has_largest(&lists[1]) {
            coverage.count(self.largest, 0);
        }
        if let Some(field) = only_raised(&lists[0], &lists[1]) {
            coverage.count(self.raised, field - 1);
        }
        let [first, second] = found;
        for code in 0..SUBTOTALS.len() {
            let higher = second.exact(code) > first.exact(code);
            coverage.count(self.higher, 2 * code + usize::from(higher));
            if higher && second.doubles[code] == first.doubles[code] {
                coverage.count(self.rounded_away, code);
            }
        }
    }

    /// A pair that is broken in this field, and how each subtotal fell.
    pub fn note_broken(&mut self, field: usize, fallen: [[bool; 2]; SUBTOTALS.len()]) {
        self.coverage.count(self.broken, field - 1);
        let fallen = fallen.as_flattened();
        if fallen.contains(&true) {
            self.coverage.count(self.fallen_by, field - 1);
        }
        for (nth, _) in fallen.iter().enumerate().filter(|(_, &fell)| fell) {
            self.coverage.count(self.fallen, nth);
        }
    }
}
