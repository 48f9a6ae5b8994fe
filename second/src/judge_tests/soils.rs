//! Number 13: "place of the first row of the lowest soil type whose two area sums
//! differ", straight after 12.

use super::{accepted_second, refused, Hand, Verdict};

/// The parameters, and soils of these types with these areas now and then, from block 1
/// on.
fn soils(rows: &[[u32; 3]]) -> Hand {
    let blocks = rows.chunks(12).map(|rows| (7, rows.len() as u8));
    let blocks: Vec<(u8, u8)> = [(4, 1)].into_iter().chain(blocks).collect();
    let mut hand = Hand::second(&blocks);
    for (nth, &[own, now, then]) in rows.iter().enumerate() {
        let (b, r) = (1 + nth / 12, nth % 12);
        hand = hand
            .four(b, r, 0, nth as u32)
            .two(b, r, 6, own as u16)
            .four(b, r, 8, now)
            .four(b, r, 12, then);
    }
    hand
}

fn judged(rows: &[[u32; 3]]) -> Verdict {
    soils(rows).judged()
}

fn good(rows: u32) -> Verdict {
    accepted_second([0, 0, 0, 1, 0, 0, rows])
}

#[test]
fn one_type() {
    assert_eq!(judged(&[[3, 0, 0]]), good(1));
    assert_eq!(judged(&[[3, 100_000, 100_000]]), good(1));
    assert_eq!(judged(&[[3, 5, 4]]), refused(13, 12));
    assert_eq!(judged(&[[3, 4, 5]]), refused(13, 12));
    // Both rows differ, and their sums don't.
    assert_eq!(judged(&[[3, 5, 4], [3, 6, 7]]), good(2));
    assert_eq!(judged(&[[3, 5, 4], [3, 6, 6]]), refused(13, 12));
    assert_eq!(judged(&[[3, 5, 5], [3, 6, 7]]), refused(13, 12));
    // 100,000 of 0.001 Mha go beyond two bytes.
    assert_eq!(judged(&[[3, 65_536, 0]]), refused(13, 12));
    assert_eq!(judged(&[[3, 65_536, 0], [3, 0, 65_536]]), good(2));
}

/// A type by itself, not the rows as a whole.
#[test]
fn several_types() {
    assert_eq!(judged(&[[3, 5, 4], [4, 4, 5]]), refused(13, 12));
    assert_eq!(judged(&[[4, 5, 4], [3, 4, 5]]), refused(13, 13));
    // 13 at a type that is not the first in the return, with a lower type in balance.
    assert_eq!(judged(&[[2, 5, 5], [9, 1, 2], [3, 7, 7]]), refused(13, 13));
    assert_eq!(judged(&[[9, 5, 5], [2, 1, 1], [3, 7, 6]]), refused(13, 14));
    // Two out of balance, the lower type later in the return.
    assert_eq!(judged(&[[9, 5, 4], [2, 1, 1], [3, 7, 6]]), refused(13, 14));
    assert_eq!(judged(&[[9, 5, 4], [2, 1, 2], [3, 7, 7]]), refused(13, 13));
    // Its first row, though that is even by itself and the next one not.
    let rows = [[9, 5, 4], [2, 8, 8], [9, 4, 5], [2, 1, 2], [2, 3, 3]];
    assert_eq!(judged(&rows), refused(13, 13));
    // Types that differ in one byte alone, and both ends.
    for [low, high] in [[1, 257], [255, 256], [0, 65_535], [256, 65_280]] {
        assert_eq!(judged(&[[high, 5, 4], [low, 4, 5]]), refused(13, 13));
        assert_eq!(judged(&[[high, 5, 4], [low, 4, 4]]), refused(13, 12));
        assert_eq!(judged(&[[high, 4, 4], [low, 4, 4]]), good(2));
    }
}

/// The land system is no soil type.
#[test]
fn land_systems() {
    let with = |systems: [u16; 2], types: [u32; 2]| {
        let hand = soils(&[[types[0], 5, 4], [types[1], 4, 5]]);
        let hand = hand.two(1, 0, 4, systems[0]).two(1, 1, 4, systems[1]);
        hand.judged()
    };
    assert_eq!(with([1, 2], [7, 7]), good(2));
    assert_eq!(with([1, 1], [7, 8]), refused(13, 12));
    assert_eq!(with([2, 1], [8, 7]), refused(13, 13));
}

/// 32 rows over three blocks, each of which counts, and the most that they come to.
#[test]
fn every_block_counts() {
    let most: Vec<[u32; 3]> = (0..32).map(|_| [7, 100_000, 100_000]).collect();
    assert_eq!(judged(&most), good(32));
    for row in 0..32 {
        for [now, then] in [[99_999, 100_000], [100_000, 99_999]] {
            let mut rows = most.clone();
            rows[row] = [7, now, then];
            assert_eq!(judged(&rows), refused(13, 12), "row {row}");
            // Of a type of its own it is at its own place.
            rows[row][0] = 9;
            assert_eq!(judged(&rows), refused(13, 12 + row as u32), "row {row}");
        }
    }
    // All different, and the last one lower than all.
    let mut rows: Vec<[u32; 3]> = (0..32).map(|nth| [1_000 - nth, nth, nth]).collect();
    assert_eq!(judged(&rows), good(32));
    rows[0][1] += 1;
    rows[31][2] += 1;
    assert_eq!(judged(&rows), refused(13, 43));
    // One moves from each row to the next.
    let turned: Vec<[u32; 3]> = (0..32).map(|n| [5, 50 + n, 50 + (n + 1) % 32]).collect();
    assert_eq!(judged(&turned), good(32));
}

/// "straight after 12": each other number comes before it.
#[test]
fn lower_numbers_come_first() {
    let base = || {
        Hand::second(&[(1, 1), (4, 1), (7, 2)])
            .ids(2, 2, 0)
            .four(2, 1, 8, 1)
    };
    assert_eq!(base().judged(), refused(13, 24));
    let cleared = || base().four(0, 0, 4, 1).two(0, 0, 8, 1).two(0, 0, 18, 1);
    assert_eq!(cleared().judged(), refused(12, 0));
    assert_eq!(cleared().two(0, 0, 12, 1_000).judged(), refused(7, 0));
    assert_eq!(base().two(2, 0, 22, 301).judged(), refused(6, 24));
    assert_eq!(base().four(2, 1, 12, 100_001).judged(), refused(6, 25));
    assert_eq!(base().four(2, 1, 0, 0).judged(), refused(5, 25));
    assert_eq!(base().byte(2 * 512 + 8 + 24, 1).judged(), refused(4, 2));
    assert_eq!(base().edition(1, 1).judged(), refused(3, 1));
    let mut bytes = base().checked();
    bytes[1_532] ^= 1;
    assert_eq!(super::judge(&bytes), refused(2, 2));
    assert_eq!(super::judge(&bytes[..1_535]), refused(1, 0));
}

/// Without soils there is nothing to be uneven, in either edition.
#[test]
fn no_soils() {
    assert_eq!(judged(&[]), good(0));
    assert_eq!(Hand::new(&[(4, 1)]).judged(), super::accepted([0, 0, 0, 1]));
}
