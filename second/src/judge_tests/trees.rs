//! Edition 3, which "has no unit code 1" and "is otherwise edition 2", number 14, and how
//! many scattered trees the others have (02, §12).

use super::{accepted_in, full, judge, refused, Counts, Hand, Verdict, FULL, LAST_KIND};

/// Kind 4 is 4, count 1 is 2, one block is 5, edition 3 is 21: 32 in all.
#[test]
fn lone_parameters_of_edition_3_have_check_32() {
    let bytes = Hand::in_edition(3, &[(4, 1)]).checked();
    assert_eq!(bytes[508..], [32, 0, 0, 0]);
    assert_eq!(judge(&bytes), accepted_in(3, &[0, 0, 0, 1]));
}

/// All kinds of edition 2, full and by themselves, and none above.
#[test]
fn edition_3_has_the_kinds_of_edition_2() {
    let mut rows = [32; LAST_KIND];
    rows[3] = 1;
    let third = |hand: Hand| (0..FULL.len()).fold(hand, |hand, b| hand.edition(b, 3));
    assert_eq!(third(full()).judged(), accepted_in(3, &rows));
    for kind in 5..=LAST_KIND as u8 {
        let mut rows = [0; LAST_KIND];
        (rows[3], rows[usize::from(kind) - 1]) = (1, 1);
        let one = Hand::in_edition(3, &[(4, 1), (kind, 1)]);
        assert_eq!(one.judged(), accepted_in(3, &rows));
    }
    let above = LAST_KIND as u8 + 1;
    let one = Hand::in_edition(3, &[(4, 1), (above, 1)]);
    assert_eq!(one.judged(), refused(3, 1));
}

/// Where a return may end, as in edition 2.
#[test]
fn edition_3_ends_as_edition_2() {
    for blocks in [
        &[(4, 1)][..],
        &[(1, 1), (4, 1)],
        &[(4, 1), (5, 1)],
        &[(4, 1), (4, 1)],
        &[(4, 1), (3, 1)],
        &[(1, 1), (3, 1)],
        &[(5, 1), (4, 1)],
        &[(5, 1)],
        &[(4, 1), (6, 1), (5, 1)],
        &[(4, 2), (5, 1)],
        &[(2, 11), (2, 1), (4, 1)],
    ] {
        let [second, third] = [2, 3].map(|e| Hand::in_edition(e, blocks).judged().answer());
        assert_eq!(second, third, "{blocks:?}");
    }
}

/// Editions unlike block 0's, with each that there is.
#[test]
fn one_edition_for_all_blocks() {
    for first in [1, 2, 3] {
        for second in [1, 2, 3] {
            let hand = Hand::new(&[(1, 1), (4, 1)]);
            let verdict = hand.edition(0, first).edition(1, second).judged();
            let due = if first == second {
                accepted_in(first, &[1, 0, 0, 1])
            } else {
                refused(3, 1)
            };
            assert_eq!(verdict, due, "{first} and {second}");
        }
    }
}

/// Stock rows of these codes behind a conversion row, and the parameters.
fn stock(edition: u16, codes: &[u8]) -> Hand {
    let blocks = codes.chunks(12).map(|codes| (2, codes.len() as u8));
    let blocks: Vec<(u8, u8)> = [(1, 1)].into_iter().chain(blocks).chain([(4, 1)]).collect();
    let mut hand = Hand::in_edition(edition, &blocks);
    for (nth, &code) in codes.iter().enumerate() {
        let (b, r) = (1 + nth / 12, nth % 12);
        let at = 512 * b + 8 + 40 * r + 4;
        hand = hand.four(b, r, 0, nth as u32).byte(at, code);
    }
    hand
}

fn with_trees(edition: u16, stock: u32, scattered: u32) -> Verdict {
    let mut rows = [0; LAST_KIND];
    rows[..4].copy_from_slice(&[1, stock, 0, 1]);
    Verdict::Accepted(Counts {
        edition,
        rows,
        scattered,
    })
}

/// "the answer says how many such rows there were"
#[test]
fn trees_are_counted() {
    for edition in [1, 2] {
        for codes in [&[0][..], &[1], &[0, 1], &[1, 1, 0], &[1; 12]] {
            let trees = codes.iter().filter(|&&code| code == 1).count();
            let due = with_trees(edition, codes.len() as u32, trees as u32);
            assert_eq!(stock(edition, codes).judged(), due, "{codes:?}");
        }
        assert_eq!(
            stock(edition, &[1; 32]).judged(),
            with_trees(edition, 32, 32)
        );
        let mut last = [0; 32];
        last[31] = 1;
        assert_eq!(stock(edition, &last).judged(), with_trees(edition, 32, 1));
        assert_eq!(stock(edition, &[1, 2]).judged(), refused(6, 13));
    }
    assert_eq!(stock(3, &[0; 32]).judged(), with_trees(3, 32, 0));
}

/// A byte that is 1 elsewhere in a record is no unit code.
#[test]
fn other_ones_are_no_trees() {
    let hand = stock(2, &[0, 0]).two(1, 0, 6, 1).four(1, 0, 8, 1);
    let hand = hand.two(1, 0, 12, 1).four(1, 1, 0, 1);
    assert_eq!(hand.judged(), with_trees(2, 2, 0));
    // Nor is the fifth byte of another kind.
    let others = Hand::in_edition(3, &[(1, 1), (3, 1), (4, 1), (5, 1), (6, 1)]);
    let hand = [0, 512, 1024, 1536, 2048]
        .iter()
        .fold(others, |hand, at| hand.byte(at + 12, 1));
    assert_eq!(hand.judged(), accepted_in(3, &[1, 0, 1, 1, 1, 1]));
}

/// "14, place of the record, for code 1 in edition 3", the lowest; "code 2 or above stays
/// 6".
#[test]
fn trees_of_edition_3() {
    assert_eq!(stock(3, &[0, 0]).judged(), with_trees(3, 2, 0));
    assert_eq!(stock(3, &[1]).judged(), refused(14, 12));
    assert_eq!(stock(3, &[0, 1, 1]).judged(), refused(14, 13));
    for at in 0..32 {
        let mut codes = [0; 32];
        codes[at] = 1;
        let due = refused(14, 12 + at as u32);
        assert_eq!(stock(3, &codes).judged(), due, "row {at}");
        codes[31] = 1;
        assert_eq!(stock(3, &codes).judged(), due, "row {at} and the last");
    }
    for code in 2..=255 {
        assert_eq!(stock(3, &[code]).judged(), refused(6, 12));
        // The other place is lower, and the other number comes first.
        assert_eq!(stock(3, &[1, code]).judged(), refused(6, 13));
        assert_eq!(stock(3, &[code, 1]).judged(), refused(6, 12));
    }
}

/// "straight after 6": each number before it, and each behind it.
#[test]
fn its_place_in_the_order() {
    let trees = || stock(3, &[0, 1]);
    assert_eq!(trees().judged(), refused(14, 13));
    // 7, 12 and 13 come after it, though 7 and 12 have lower places.
    let fractions = || trees().two(0, 0, 12, 1_000).two(0, 0, 18, 1);
    assert_eq!(fractions().judged(), refused(14, 13));
    let cleared = || fractions().four(0, 0, 4, 1).two(0, 0, 8, 1);
    assert_eq!(cleared().judged(), refused(14, 13));
    let soils = |code: u8, fraction: u16, area: u32| {
        let hand = Hand::in_edition(3, &[(1, 1), (2, 1), (4, 1), (7, 1)]);
        let hand = hand
            .byte(512 + 8 + 4, code)
            .two(0, 0, 12, fraction)
            .two(0, 0, 18, 1);
        hand.four(0, 0, 4, 1)
            .two(0, 0, 8, 1)
            .four(3, 0, 8, area)
            .judged()
    };
    assert_eq!(soils(1, 1_000, 1), refused(14, 12));
    assert_eq!(soils(0, 1_000, 1), refused(7, 0));
    assert_eq!(soils(0, 0, 1), refused(12, 0));
    assert_eq!(soils(0, 0, 0), refused(12, 0));
    assert_eq!(soils(2, 1_000, 1), refused(6, 12));
    // 6 anywhere, behind it or in the row itself.
    assert_eq!(trees().two(2, 0, 4, 1_001).judged(), refused(6, 24));
    assert_eq!(trees().two(1, 1, 6, 10_001).judged(), refused(6, 13));
    assert_eq!(trees().two(0, 0, 8, 10_001).judged(), refused(6, 0));
    assert_eq!(trees().four(1, 1, 0, 0).judged(), refused(5, 13));
    assert_eq!(trees().byte(512 + 507, 1).judged(), refused(4, 1));
    assert_eq!(trees().edition(2, 2).judged(), refused(3, 2));
    let mut bytes = trees().checked();
    bytes[1_532] ^= 1;
    assert_eq!(judge(&bytes), refused(2, 2));
    assert_eq!(judge(&bytes[..1_535]), refused(1, 0));
}
