//! Number 12: "when L is above 100K", with equality still good.

use super::{accepted, accepted_second, refused, Hand};

/// One conversion row that clears area x (before - after) x off-site fraction, and one
/// harvest row.
fn clearing(area: u32, [before, after, off_site]: [u16; 3], [f, g]: [u32; 2]) -> Hand {
    Hand::new(&[(1, 1), (3, 1), (4, 1)])
        .four(0, 0, 4, area)
        .two(0, 0, 8, before)
        .two(0, 0, 10, after)
        .two(0, 0, 18, off_site)
        .four(1, 0, 4, f)
        .two(1, 0, 8, g as u16)
}

#[test]
fn equality_is_good() {
    let good = accepted([1, 0, 1, 1]);
    // L = 7 x 30 x 10 = 2,100 and 100 K = 2,100.
    assert_eq!(clearing(7, [50, 20, 10], [3, 7]).judged(), good);
    assert_eq!(clearing(7, [50, 20, 10], [20, 1]).judged(), refused(12, 0));
    // L = 2,101 and 2,099.
    assert_eq!(clearing(2_101, [2, 1, 1], [3, 7]).judged(), refused(12, 0));
    assert_eq!(clearing(2_099, [2, 1, 1], [3, 7]).judged(), good);
    assert_eq!(clearing(0, [2, 1, 1], [0, 7]).judged(), good);
    assert_eq!(clearing(1, [2, 1, 1], [0, 7]).judged(), refused(12, 0));
}

/// I and J are thousands of K; the other fractions, the ten years and the stock have
/// nothing to do with it.
#[test]
fn each_field_counts() {
    let good = accepted([1, 0, 1, 1]);
    let base = |area| clearing(area, [2, 1, 1], [0, 0]);
    for at in [12, 16] {
        assert_eq!(base(100_000).four(1, 0, at, 1).judged(), good);
        assert_eq!(base(100_001).four(1, 0, at, 1).judged(), refused(12, 0));
    }
    let both = || base(300_001).four(1, 0, 12, 2).four(1, 0, 16, 1);
    assert_eq!(both().judged(), refused(12, 0));
    assert_eq!(both().four(1, 0, 4, 1).two(1, 0, 8, 1).judged(), good);
    // On-site and decay clear nothing of L.
    let others = [(12, 500), (14, 1_000), (16, 1_000), (32, 499)];
    let fill = |hand: Hand| others.iter().fold(hand, |h, &(at, v)| h.two(0, 0, at, v));
    assert_eq!(fill(base(0).four(0, 0, 24, 1_000_000)).judged(), good);
    assert_eq!(fill(base(1)).judged(), refused(12, 0));
    let stock = Hand::new(&[(1, 1), (2, 1), (4, 1)])
        .four(0, 0, 4, 1)
        .two(0, 0, 8, 1)
        .two(0, 0, 18, 1)
        .two(1, 0, 6, 10_000)
        .four(1, 0, 8, 10_000_000)
        .two(1, 0, 12, 1_000);
    assert_eq!(stock.judged(), refused(12, 0));
}

/// "its difference counts as 0 [..] in L" (02, §3): nothing is taken from other rows.
#[test]
fn thinner_rows_clear_nothing() {
    let two = |before: u16, after: u16| {
        Hand::new(&[(1, 2), (3, 1), (4, 1)])
            .ids(0, 2, 0)
            .four(0, 0, 4, 1_000)
            .two(0, 0, 8, before)
            .two(0, 0, 10, after)
            .two(0, 0, 18, 1)
            .four(0, 1, 4, 101)
            .two(0, 1, 8, 1)
            .two(0, 1, 18, 1)
            .four(1, 0, 4, 1)
            .two(1, 0, 8, 1)
            .judged()
    };
    assert_eq!(two(1, 2), refused(12, 0));
    assert_eq!(two(0, 10_000), refused(12, 0));
    let alone = clearing(1_000_000, [0, 10_000, 1_000], [0, 0]);
    assert_eq!(alone.judged(), accepted([1, 0, 1, 1]));
}

/// All rows of all blocks, up to the largest sums.
#[test]
fn every_block_counts() {
    let blocks = [(1, 12), (1, 12), (1, 8), (3, 12), (3, 12), (3, 8), (4, 1)];
    let full = |off_site: u16, f: u32| {
        let mut hand = super::filled(super::filled(Hand::second(&blocks), 0), 3);
        for place in 0..32 {
            let (b, r) = (place / 12, place % 12);
            hand = hand
                .four(b, r, 4, 1_000_000)
                .two(b, r, 8, 10_000)
                .two(b, r, 18, off_site)
                .four(b + 3, r, 4, f)
                .two(b + 3, r, 8, 10_000);
        }
        hand
    };
    let good = accepted_second([32, 0, 32, 1]);
    assert_eq!(full(1_000, 10_000_000).judged(), good);
    assert_eq!(full(1_000, 9_999_999).judged(), refused(12, 0));
    // One row's last hundred away, in the first block and in the last.
    for b in [3, 5] {
        let less = full(1_000, 10_000_000).four(b, 7, 4, 9_999_999);
        assert_eq!(less.judged(), refused(12, 0));
    }
    for b in [0, 2] {
        let more = full(0, 0).two(b, 7, 18, 1).four(b, 7, 4, 1);
        assert_eq!(more.judged(), refused(12, 0));
    }
}

/// "tried straight after 7": each lower number comes before it.
#[test]
fn lower_numbers_come_first() {
    let base = || clearing(1, [2, 1, 1], [0, 0]);
    assert_eq!(base().judged(), refused(12, 0));
    assert_eq!(base().two(0, 0, 12, 1_000).judged(), refused(7, 0));
    assert_eq!(base().two(2, 0, 4, 1_001).judged(), refused(6, 24));
    assert_eq!(base().byte(3 * 512 - 5, 1).judged(), refused(4, 2));
    assert_eq!(base().byte(1_030, 2).judged(), refused(3, 2));
    let mut bytes = base().checked();
    bytes[1_532] ^= 1;
    assert_eq!(super::judge(&bytes), refused(2, 2));
    assert_eq!(super::judge(&bytes[..1_535]), refused(1, 0));
    let two = Hand::new(&[(1, 2), (4, 1)]);
    let two = two.four(0, 1, 4, 1).two(0, 1, 8, 1).two(0, 1, 18, 1);
    assert_eq!(two.judged(), refused(5, 1));
}
