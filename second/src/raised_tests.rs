use super::*;
use crate::doubles::subtotals;
use crate::judge::judge;
use crate::lists::rows_of;
use crate::make::worked_day;
use crate::sheets::sheets;

/// On-site, off-site and decay: exact, and as doubles.
fn totals(bytes: &[u8]) -> ([u128; 3], [f64; 3]) {
    let exact = sheets(bytes).expect("an accepted version");
    let doubles = subtotals(bytes).expect("an accepted version").in_order();
    ([exact.onsite, exact.offsite, exact.decay], doubles)
}

fn fell(pair: &Pair) -> [bool; 2] {
    let [first, second] = [&pair.first, &pair.second].map(|bytes| totals(bytes));
    [
        first.0.iter().zip(second.0).any(|(&a, b)| b < a),
        first.1.iter().zip(second.1).any(|(&a, b)| b < a),
    ]
}

fn broken_at(pair: &Pair) -> Option<usize> {
    let [first, second] = [&pair.first, &pair.second].map(|bytes| rows_of(bytes));
    not_more_cleared(&first, &second).map(|(_, field)| field)
}

/// "Then none of the three exact subtotals is lower in the second, nor is any of the
/// three doubles."
#[test]
fn more_cleared_never_falls() {
    let mut ways = [0; WAYS.len()];
    let [mut thinner, mut rounded_away] = [0; 2];
    for index in 0..20_000 {
        let pair = pair(&mut Rng::for_input(181, index));
        for bytes in [&pair.first, &pair.second] {
            assert_eq!(judge(bytes).answer(), 0, "{}", pair.how);
        }
        assert_eq!(broken_at(&pair), None, "{}", pair.how);
        assert_eq!(fell(&pair), [false; 2], "{}", pair.how);
        let way = WAYS.iter().position(|&way| way == pair.way);
        ways[way.expect("one of the ways")] += 1;
        thinner += u32::from(has_thinner(&rows_of(&pair.first)));
        let [(exact, double), (more, higher)] =
            [&pair.first, &pair.second].map(|bytes| totals(bytes));
        rounded_away += u32::from((0..3).any(|c| more[c] > exact[c] && higher[c] == double[c]));
    }
    assert!(ways.iter().all(|&times| times > 4_000), "{ways:?}");
    assert!(
        thinner > 5_000 && rounded_away > 200,
        "{thinner} {rounded_away}"
    );
}

/// Every field can be the one that breaks the premise, and each makes some fall.
#[test]
fn broken_pairs_fall() {
    let mut came = [[0; 3]; 15];
    for index in 0..20_000 {
        let pair = broken_pair(&mut Rng::for_input(182, index));
        for bytes in [&pair.first, &pair.second] {
            assert_eq!(judge(bytes).answer(), 0, "{}", pair.how);
        }
        assert_eq!(broken_at(&pair), pair.broken, "{}", pair.how);
        let field = pair.broken.expect("a field is broken");
        let [exact, double] = fell(&pair).map(u32::from);
        came[field][0] += 1;
        came[field][1] += exact;
        came[field][2] += double;
    }
    assert_eq!(came[0], [0; 3]);
    let often = came[1..].iter().flatten().all(|&times| times > 50);
    assert!(often, "{came:?}");
}

/// By hand, from the worked day: each field one step either way.
#[test]
fn the_premise_by_hand() {
    let mut day = worked_day();
    day.conversion.push(day.conversion[0]);
    day.conversion[1][0] = 8;
    let lists = |rows: &Rows| rows.lists();
    assert_eq!(not_more_cleared(&lists(&day), &lists(&day)), None);
    for field in COMPARED {
        let mut other = day.clone();
        other.conversion[1][field] += 1;
        let [up, down] = [(&day, &other), (&other, &day)]
            .map(|(first, second)| not_more_cleared(&lists(first), &lists(second)));
        let broken = Some((1, field));
        let due = if [3, 12].contains(&field) {
            [broken, None]
        } else {
            [None, broken]
        };
        assert_eq!([up, down], due, "field {field}");
    }
    // Other ids, or a row that is missing.
    let mut other = day.clone();
    other.conversion[0][0] = 6;
    assert_eq!(not_more_cleared(&lists(&day), &lists(&other)), Some((0, 0)));
    other.conversion[0][0] = 7;
    other.conversion.pop();
    assert_eq!(not_more_cleared(&lists(&day), &lists(&other)), Some((1, 0)));
    assert_eq!(not_more_cleared(&lists(&other), &lists(&day)), Some((1, 0)));
    // The other kinds may be anything.
    let mut other = day.clone();
    (other.edition, other.stock) = (2, Vec::new());
    other.harvest[0][1] = 9_999;
    other.parameters[0] = [0; 6];
    assert_eq!(not_more_cleared(&lists(&day), &lists(&other)), None);
}
