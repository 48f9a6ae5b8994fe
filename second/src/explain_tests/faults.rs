//! Number 4, by the first fault of the block.

use super::*;
use crate::make::zero_areas;

/// Number 4 at a block whose header is as it should be but for its fault.
fn fault(word: &str, blocks: &[(u8, u8)], (edition, place): (u32, usize), more: &str) {
    let hand = Hand::in_edition(edition as u16, blocks);
    let ((kind, count), all) = (blocks[place], blocks.len());
    let due = format!(
        "refused 4 {place}\nfault {word}\nkind {kind}\ncount {count}\nnumber {place}\n\
         blocks {all}\nedition {edition}\n{more}"
    );
    assert_eq!(explained(hand), due, "{blocks:?} in edition {edition}");
}

#[test]
fn orders() {
    for edition in [1, 2, 3] {
        let before = |kind| format!("kind_before {kind}\n");
        fault("order", &[(2, 1), (1, 1), (4, 1)], (edition, 1), &before(2));
        // A last block below kind 4, too; and a count of 0, and a fourth.
        fault("order", &[(3, 1), (1, 0)], (edition, 1), &before(3));
        let four = [(1, 12), (1, 12), (1, 8), (2, 1), (1, 12), (4, 1)];
        fault("order", &four, (edition, 4), &before(2));
    }
    fault(
        "order",
        &[(4, 1), (6, 1), (5, 1)],
        (2, 2),
        "kind_before 6\n",
    );
    fault(
        "order",
        &[(4, 1), (5, 1), (4, 1)],
        (2, 2),
        "kind_before 5\n",
    );
    fault(
        "order",
        &[(4, 1), (8, 1), (7, 1)],
        (3, 2),
        "kind_before 8\n",
    );
}

#[test]
fn ends() {
    // "kind 4 and not last, or last and not kind 4"
    fault("end", &[(4, 1), (4, 1)], (1, 0), "");
    fault("end", &[(4, 1), (1, 1)], (1, 0), "");
    fault("end", &[(1, 1)], (1, 0), "");
    fault("end", &[(1, 1), (3, 0)], (1, 1), "");
    fault("end", &[(2, 12), (2, 13)], (1, 1), "");
    // "kind 4 before a kind below 5"
    fault("end", &[(4, 1), (4, 1)], (2, 0), "");
    fault("end", &[(1, 1), (4, 9), (2, 1)], (2, 1), "");
    // "a last block below kind 4"
    fault("end", &[(3, 13)], (2, 0), "");
    // "a kind above 4 with no kind 4 before it"
    fault("end", &[(5, 1)], (2, 0), "");
    fault("end", &[(3, 1), (6, 0), (4, 1)], (2, 1), "");
    fault("end", &[(5, 11), (5, 1), (4, 1)], (2, 0), "");
    fault("end", &[(7, 1), (4, 1)], (2, 0), "");
    fault("end", &[(1, 1), (8, 1)], (3, 1), "");
}

#[test]
fn counts() {
    for count in [0, 13, 255] {
        fault("count", &[(1, count), (4, 1)], (1, 0), "");
        // The next block has its kind, too.
        fault("count", &[(3, count), (3, 1), (4, 1)], (2, 0), "");
        fault("count", &[(4, 1), (5, count)], (2, 1), "");
    }
    for count in [0, 2, 12] {
        fault("count", &[(1, 1), (4, count)], (1, 1), "");
        fault("count", &[(4, count), (6, 1)], (2, 0), "");
    }
    // A third of its kind with more than 12.
    fault("count", &[(2, 12), (2, 12), (2, 13), (4, 1)], (1, 2), "");
}

#[test]
fn unfilled_and_overfilled() {
    for edition in [1, 2, 3] {
        let next = "kind_next 2\n";
        fault("unfilled", &[(2, 11), (2, 12), (4, 1)], (edition, 0), next);
        fault(
            "unfilled",
            &[(2, 12), (2, 1), (2, 1), (4, 1)],
            (edition, 1),
            next,
        );
        let third = |count| [(2, 12), (2, 12), (2, count), (4, 1)];
        for count in 9..=12 {
            fault("overfilled", &third(count), (edition, 2), "");
        }
        // Before a fourth block no count is good.
        let fourth = |count| [(2, 12), (2, 12), (2, count), (2, 1), (4, 1)];
        for count in [1, 8, 9, 11] {
            fault("unfilled", &fourth(count), (edition, 2), next);
        }
        fault("overfilled", &fourth(12), (edition, 2), "");
    }
    fault(
        "overfilled",
        &[(4, 1), (6, 12), (6, 12), (6, 9)],
        (2, 3),
        "",
    );
}

/// Why no text says `fourth`: over all kinds and counts of five blocks, that is
/// never a return's first fault.
#[test]
fn a_fourth_is_never_first() {
    let kinds = [1, 2, 4, 5];
    for edition in [1, 2, 3] {
        for index in 0..usize::pow(4 * 3, 5) {
            let digit = |b: u32| index / usize::pow(12, b) % 12;
            let block = |b| (kinds[digit(b) % 4], [8, 12, 1][digit(b) / 4]);
            let blocks = [0, 1, 2, 3, 4].map(block);
            // Only where there are four of a kind, and kinds of the edition.
            let times = |kind| blocks.iter().filter(|block| block.0 == kind).count();
            if kinds.iter().all(|&kind| times(kind) < 4) || (edition == 1 && times(5) > 0) {
                continue;
            }
            let mut bytes = Hand::new(&blocks).checked();
            bytes.chunks_mut(512).for_each(|block| block[6] = edition);
            let (_, fault) = first_fault(whole_blocks(&bytes)).expect("four of a kind");
            assert_ne!(fault, Fault::Fourth, "{blocks:?} in edition {edition}");
        }
    }
}

#[test]
fn strays() {
    let stray =
        |b, offset, byte| format!("refused 4 {b}\nfault stray\noffset {offset}\nbyte {byte}\n");
    let two = || Hand::new(&[(2, 2), (4, 1)]).ids(0, 2, 0);
    // The zero byte behind the second record's unit code, and the last of the twenty.
    assert_eq!(explained(two().byte(53, 7).byte(507, 9)), stray(0, 53, 7));
    assert_eq!(explained(two().byte(507, 255)), stray(0, 507, 255));
    assert_eq!(explained(two().byte(88, 1).byte(487, 2)), stray(0, 88, 1));
    assert_eq!(explained(two().byte(488, 3)), stray(0, 488, 3));
    // Where a parameter record has zero in the place of an id.
    assert_eq!(explained(two().byte(520, 4).byte(536, 5)), stray(1, 8, 4));
    // A byte in a field is none.
    assert_eq!(explained(two().byte(16, 5).byte(22, 6)), stray(0, 22, 6));
    // A later number is not looked at: the second id is not above the first.
    assert_eq!(
        explained(two().four(0, 1, 0, 0).byte(300, 1)),
        stray(0, 300, 1)
    );
}

/// Every byte of a block of each kind and count: it is a stray just where the
/// maker's table, made by itself, has an area of zeros.
#[test]
fn strays_stand_where_zero_is_due() {
    for kind in 1..=KINDS.len() as u8 {
        for count in if kind == 4 { 1..=1 } else { 1..=12 } {
            let mut block = [0; 512];
            (block[0], block[1]) = (kind, count);
            let areas = zero_areas(kind, count.into());
            for at in 8..508 {
                block[at] = 1;
                let due = areas.iter().any(|area| area.contains(&at));
                let found = first_stray(&block);
                assert_eq!(found, due.then_some(at), "kind {kind}, {count} records");
                block[at] = 0;
            }
        }
    }
}
