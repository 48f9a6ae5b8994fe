//! The kinds above 4, each by its own fields: where they stand, and that they are judged as any other kind.

use super::{accepted_in, filled, full, refused, Hand, Verdict, FULL, LAST_KIND, MOST_BLOCKS};

/// A field's place in the record, its bytes and its limit.
type Field = (usize, usize, u32);

/// By hand from the requests: each kind with its fields behind the id. Land abandoned up to twenty years and longer has area, rate and carbon
/// fraction "in the units and limits of land stock rows"; savannas have an area, a density, six fractions and five ratios; soils two numbers
/// that fill their bytes, two areas, the native carbon and three factors; crops a production, the residue ratio, three fractions, the carbon
/// fraction in ten-thousandths and five ratios.
#[rustfmt::skip]
const LATER: [(u8, &[Field]); LAST_KIND - 4] = [
    (5, &[(4, 4, 10_000_000), (8, 2, 10_000), (10, 2, 1_000), (12, 4, 10_000_000), (16, 2, 10_000), (18, 2, 1_000)]),
    (6, &[
        (4, 4, 1_000_000), (8, 2, 10_000), (10, 2, 1_000), (12, 2, 1_000), (14, 2, 1_000), (16, 2, 1_000), (18, 2, 1_000), (20, 2, 1_000),
        (22, 2, 1_000), (24, 2, 1_000), (26, 2, 1_000), (28, 2, 1_000), (30, 2, 1_000),
    ]),
    (7, &[
        (4, 2, 65_535), (6, 2, 65_535), (8, 4, 100_000), (12, 4, 100_000), (16, 2, 10_000), (18, 2, 300), (20, 2, 300), (22, 2, 300),
    ]),
    (8, &[
        (4, 4, 10_000_000), (8, 2, 1_000), (10, 2, 1_000), (12, 2, 1_000), (14, 2, 1_000), (16, 2, 10_000),
        (18, 2, 1_000), (20, 2, 1_000), (22, 2, 1_000), (24, 2, 1_000), (26, 2, 1_000),
    ]),
];

/// A soil's areas are alike, or number 13 would come behind the others.
const SOIL_AREAS: [usize; 2] = [8, 12];

/// One row of parameters and so many of each of these kinds.
fn accepted(rows: &[(u8, u32)]) -> Verdict {
    let mut counts = [0; LAST_KIND];
    counts[3] = 1;
    for &(kind, count) in rows {
        counts[usize::from(kind) - 1] = count;
    }
    accepted_in(2, &counts)
}

fn judged(blocks: &[(u8, u8)]) -> Verdict {
    Hand::second(blocks).judged()
}

#[test]
fn all_blocks_are_full() {
    let mut rows = [32; LAST_KIND];
    rows[3] = 1;
    assert_eq!(full().judged(), accepted_in(2, &rows));
    // One block more is number 1, whatever it is.
    let mut more = FULL.to_vec();
    more.push((LAST_KIND as u8, 1));
    assert_eq!(judged(&more), refused(1, 0));
    assert_eq!(Hand::new(&more).judged(), refused(1, 0));
}

/// Each stands behind the parameters and behind the kinds below it.
#[test]
fn kinds_stand_in_order() {
    let all: Vec<(u8, u8)> = (1..=LAST_KIND as u8).map(|kind| (kind, 1)).collect();
    assert_eq!(judged(&all), accepted_in(2, &[1; LAST_KIND]));
    for (kind, _) in LATER {
        assert_eq!(judged(&[(4, 1), (kind, 1)]), accepted(&[(kind, 1)]));
        for lower in 1..kind {
            let blocks = [(4, 1), (kind, 1), (lower, 1)];
            assert_eq!(judged(&blocks), refused(4, 2), "{blocks:?}");
        }
        for lower in 5..kind {
            let blocks = [(4, 1), (lower, 1), (kind, 1), (lower, 1)];
            assert_eq!(judged(&blocks), refused(4, 3), "{blocks:?}");
        }
    }
}

/// "a kind above 4 with no kind 4 before it"
#[test]
fn they_want_parameters_before_them() {
    for (kind, _) in LATER {
        for (blocks, place) in [
            (&[(kind, 1)][..], 0),
            (&[(3, 1), (kind, 1)], 1),
            (&[(kind, 1), (4, 1)], 0),
            (&[(3, 1), (kind, 12), (kind, 1), (4, 1), (kind, 1)], 1),
        ] {
            assert_eq!(judged(blocks), refused(4, place), "{blocks:?}");
        }
        // Of several the first is at fault, rising or not.
        for higher in kind + 1..=LAST_KIND as u8 {
            assert_eq!(judged(&[(1, 1), (kind, 1), (higher, 1)]), refused(4, 1));
            assert_eq!(judged(&[(higher, 1), (kind, 1), (4, 1)]), refused(4, 0));
        }
    }
}

/// "a kind above 4 in edition 1"
#[test]
fn edition_1_has_none() {
    for (kind, _) in LATER {
        let both = || Hand::second(&[(4, 1), (kind, 1)]);
        assert_eq!(Hand::new(&[(4, 1), (kind, 1)]).judged(), refused(3, 1));
        assert_eq!(Hand::new(&[(kind, 1), (4, 1)]).judged(), refused(3, 0));
        let three = [(1, 1), (4, 1), (kind, 1), (LAST_KIND as u8, 1)];
        assert_eq!(Hand::new(&three).judged(), refused(3, 2));
        // An edition unlike block 0's is at fault at the same block.
        assert_eq!(both().edition(0, 1).judged(), refused(3, 1));
        assert_eq!(both().edition(1, 1).judged(), refused(3, 1));
    }
}

/// "4 then stops an edition 1 return above ten": rule 1 lets them in.
#[test]
fn lengths_are_the_same_in_either_edition() {
    for blocks in 11..=MOST_BLOCKS {
        let mut more = FULL[..10].to_vec();
        more.resize(blocks, (4, 1));
        assert_eq!(Hand::new(&more).judged(), refused(4, 9));
        // In edition 2 the same kinds are at fault at the same block.
        assert_eq!(judged(&more), refused(4, 9));
    }
    // Without the kinds behind it, a fourth of a kind has its third at fault.
    for (nth, (kind, _)) in LATER.iter().enumerate().take(LATER.len() - 1) {
        let third = 12 + 3 * nth;
        let mut four = FULL[..=third].to_vec();
        four.push((*kind, 1));
        assert_eq!(judged(&four), refused(4, third as u32));
    }
}

#[test]
fn counts() {
    for (kind, _) in LATER {
        for count in [0, 13, 255] {
            assert_eq!(judged(&[(4, 1), (kind, count)]), refused(4, 1));
        }
        for count in [0, 2, 12] {
            assert_eq!(judged(&[(4, count), (kind, 1)]), refused(4, 0));
        }
        assert_eq!(judged(&[(4, 1), (kind, 11), (kind, 1)]), refused(4, 1));
        let third = |count| Hand::second(&[(4, 1), (kind, 12), (kind, 12), (kind, count)]);
        assert_eq!(filled(third(8), 1).judged(), accepted(&[(kind, 32)]));
        assert_eq!(third(9).judged(), refused(4, 3));
        // With a fourth of its kind the third is at fault, as in edition 1.
        for third in [8, 12] {
            let four = [(4, 1), (kind, 12), (kind, 12), (kind, third), (kind, 1)];
            assert_eq!(judged(&four), refused(4, 3));
        }
    }
}

/// Zero is due from the end of the last field of a used record on, and behind them.
#[test]
fn zeros() {
    for (kind, fields) in LATER {
        let end = fields.last().map_or(0, |(at, width, _)| 8 + at + width);
        for at in 8..508 {
            let byte = Hand::second(&[(4, 1), (kind, 1)]).byte(512 + at, 1);
            let verdict = byte.judged();
            assert_eq!(
                verdict == refused(4, 1),
                at >= end,
                "kind {kind} offset {at}"
            );
        }
    }
}

#[test]
fn ids() {
    for (kind, _) in LATER {
        let two = |first, second| {
            Hand::second(&[(3, 1), (4, 1), (kind, 2)])
                .four(0, 0, 0, 9)
                .four(2, 0, 0, first)
                .four(2, 1, 0, second)
                .judged()
        };
        let good = accepted(&[(3, 1), (kind, 2)]);
        assert_eq!(two(0, u32::MAX), good);
        assert_eq!(two(9, 10), good);
        assert_eq!(two(0, 0), refused(5, 25));
        assert_eq!(two(u32::MAX, 0), refused(5, 25));
        let across = |id| {
            Hand::second(&[(4, 1), (kind, 12), (kind, 1)])
                .ids(1, 12, 100)
                .ids(2, 1, id)
                .judged()
        };
        assert_eq!(across(112), accepted(&[(kind, 13)]));
        assert_eq!(across(111), refused(5, 24));
        // Another kind's ids are its own.
        for higher in kind + 1..=LAST_KIND as u8 {
            let both = Hand::second(&[(4, 1), (kind, 1), (higher, 1)]).four(1, 0, 0, 9);
            assert_eq!(both.judged(), accepted(&[(kind, 1), (higher, 1)]));
        }
    }
}

/// A field of two bytes with a limit of 65,535 can't be above it.
#[test]
fn limits() {
    for (kind, fields) in LATER {
        for &(at, width, limit) in fields {
            let with = |value: u32| {
                let mut hand = Hand::second(&[(4, 1), (kind, 1)]);
                if kind == 7 && SOIL_AREAS.contains(&at) {
                    let other = SOIL_AREAS[usize::from(at == SOIL_AREAS[0])];
                    hand = hand.four(1, 0, other, limit);
                }
                match width {
                    2 => hand.two(1, 0, at, value as u16),
                    _ => hand.four(1, 0, at, value),
                }
                .judged()
            };
            assert_eq!(with(limit), accepted(&[(kind, 1)]), "kind {kind} at {at}");
            if limit < 65_535 || width == 4 {
                assert_eq!(with(limit + 1), refused(6, 12), "kind {kind} at {at}");
                assert_eq!(with(u32::MAX), refused(6, 12), "kind {kind} at {at}");
            }
        }
    }
}

/// Number 7 is about conversion rows alone, and a lower number wins from a later
/// kind behind them.
#[test]
fn they_break_no_7() {
    for (kind, fields) in LATER {
        let base = || Hand::second(&[(1, 1), (4, 1), (kind, 2)]).ids(2, 2, 0);
        let two_bytes = || fields.iter().filter(|(_, width, _)| *width == 2);
        let fill = |hand: Hand, &(at, _, limit): &Field| hand.two(2, 0, at, limit as u16);
        let full = two_bytes().fold(base(), fill);
        assert_eq!(full.judged(), accepted(&[(1, 1), (kind, 2)]));
        let fractions = || base().two(0, 0, 12, 1_000).two(0, 0, 18, 1);
        assert_eq!(fractions().judged(), refused(7, 0));
        let mut limited = two_bytes().filter(|(_, _, limit)| *limit < 65_535);
        let (at, _, limit) = limited.next_back().expect("a field of two bytes");
        let above = fractions().two(2, 1, *at, *limit as u16 + 1);
        assert_eq!(above.judged(), refused(6, 25));
        assert_eq!(fractions().four(2, 1, 0, 0).judged(), refused(5, 25));
        assert_eq!(fractions().byte(1024 + 507, 1).judged(), refused(4, 2));
        let unknown = fractions().byte(1024, LAST_KIND as u8 + 1);
        assert_eq!(unknown.judged(), refused(3, 2));
        assert_eq!(fractions().edition(2, 1).judged(), refused(3, 2));
    }
}
