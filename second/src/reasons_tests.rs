use super::*;
use crate::explain::text;
use crate::inputs;
use crate::judge::tests::Hand;
use crate::rng::Rng;

/// What these returns count.
fn noted(returns: impl Iterator<Item = Vec<u8>>) -> Coverage {
    let mut coverage = Coverage::default();
    let reasons = Reasons::new(Due::Once, Due::Once, &mut coverage);
    for bytes in returns {
        reasons.note(&bytes, text(&bytes).as_bytes(), &mut coverage);
    }
    coverage
}

/// By hand: two returns with a tie and one with none, and a byte in a record
/// that isn't used.
#[test]
fn reasons_are_counted_once() {
    let on_site = |hand: Hand, record| {
        let area = hand.four(0, record, 4, 5).two(0, record, 8, 1);
        (12..18)
            .step_by(2)
            .fold(area, |hand, at| hand.two(0, record, at, 3))
    };
    let two = || Hand::new(&[(1, 2), (4, 1)]).ids(0, 2, 7);
    let returns = [
        on_site(on_site(two(), 0), 1),
        on_site(two(), 1),
        two(),
        two().byte(88, 9),
    ];
    let coverage = noted(returns.into_iter().map(Hand::checked));
    let due = [
        ("explained, number 0", 3),
        ("explained, number 4", 1),
        ("fault stray, edition 1", 1),
        ("stray in an unused record", 1),
        ("heaviest on-site, none", 1),
        ("heaviest on-site, one row", 1),
        ("heaviest on-site, a tie", 1),
        ("heaviest off-site, none", 3),
        ("heaviest decay, none", 3),
    ];
    assert_eq!(coverage.came(), due);
}

/// A fifth of the comparison's inputs, from all over them, leave nothing to
/// chance, and none of them is at fault with the fourth of its kind.
#[test]
fn every_reason_comes_often() {
    let indices = (0..inputs::least_explained()).step_by(5);
    let make = |index| inputs::explained(index, &mut Rng::for_input(141, index as u64)).bytes;
    let coverage = noted(indices.map(make));
    assert!(coverage.each_came(20), "{:?}", coverage.came());
}
