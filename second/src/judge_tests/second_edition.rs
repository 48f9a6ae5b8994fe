//! Edition 2 as such; the kinds that it brought are in `later`.

use super::{accepted, accepted_second, filled, judge, lone, one_conversion, refused, Hand, FULL};

/// Kind 4 is 4, count 1 is 2, one block is 5, edition 2 is 14: 25 in all.
#[test]
fn lone_parameters_of_edition_2_have_check_25() {
    let bytes = Hand::second(&[(4, 1)]).checked();
    assert_eq!(bytes[508..], [25, 0, 0, 0]);
    assert_eq!(judge(&bytes), accepted_second([0, 0, 0, 1, 0]));
}

#[test]
fn edition_2_needs_no_later_kind() {
    let without = Hand::second(&[(1, 1), (3, 1), (4, 1)]);
    assert_eq!(without.judged(), accepted_second([1, 0, 1, 1]));
}

#[test]
fn thirteen_blocks_are_full_without_the_kinds_above_5() {
    let thirteen = Hand::second(&FULL[..13]);
    let full = [0, 3, 6, 10].into_iter().fold(thirteen, filled);
    assert_eq!(full.judged(), accepted_second([32, 32, 32, 1, 32]));
    let ten = [0, 3, 6].into_iter().fold(Hand::new(&FULL[..10]), filled);
    assert_eq!(ten.judged(), accepted([32, 32, 32, 1]));
}

#[test]
fn editions() {
    // Each of the two bytes counts: 257, 258 and 259 are neither 1 nor 2 nor 3.
    for edition in [0, 4, 5, 256, 257, 258, 259, 512, 768, 65_535] {
        assert_eq!(lone().edition(0, edition).judged(), refused(3, 0));
        let both = one_conversion().edition(0, edition).edition(1, edition);
        assert_eq!(both.judged(), refused(3, 0));
        let last = Hand::second(&[(4, 1), (5, 1)]).edition(1, edition);
        assert_eq!(last.judged(), refused(3, 1));
    }
    // Unlike block 0's, though each is an edition: the later block is at fault.
    for later in [2, 3] {
        assert_eq!(one_conversion().edition(1, later).judged(), refused(3, 1));
        assert_eq!(one_conversion().edition(0, later).judged(), refused(3, 1));
    }
    let three = || Hand::second(&[(1, 1), (2, 1), (4, 1)]);
    for other in [1, 3] {
        assert_eq!(three().edition(2, other).judged(), refused(3, 2));
        assert_eq!(three().edition(0, other).judged(), refused(3, 1));
    }
}

#[test]
fn kinds_of_an_edition() {
    let above = super::LAST_KIND as u8 + 1;
    assert_eq!(Hand::second(&[(4, 1), (above, 1)]).judged(), refused(3, 1));
    assert_eq!(Hand::second(&[(0, 1), (4, 1)]).judged(), refused(3, 0));
    assert_eq!(Hand::second(&[(4, 1), (255, 1)]).judged(), refused(3, 1));
}

/// The three rules of edition 2 where edition 1 has two on the last block.
#[test]
fn order_of_kinds_in_edition_2() {
    let at = |blocks: &[(u8, u8)], place| {
        let verdict = Hand::second(blocks).judged();
        assert_eq!(verdict, refused(4, place), "{blocks:?}");
    };
    // Kind 4 before a kind below 5.
    at(&[(4, 1), (4, 1)], 0);
    at(&[(4, 1), (3, 1)], 0);
    at(&[(1, 1), (4, 1), (2, 1)], 1);
    at(&[(4, 1), (4, 1), (5, 1)], 0);
    // A last block below kind 4.
    at(&[(1, 1)], 0);
    at(&[(1, 1), (3, 1)], 1);
    // A kind above 4 with no kind 4 before it.
    at(&[(5, 1)], 0);
    at(&[(1, 1), (5, 1)], 1);
    at(&[(5, 1), (4, 1)], 0);
    at(&[(3, 1), (5, 12), (5, 1), (4, 1), (5, 1)], 1);
    // A kind below the previous block's, as in edition 1.
    at(&[(4, 1), (5, 1), (4, 1)], 2);
    at(&[(4, 1), (5, 1), (3, 1)], 2);
    at(&[(2, 1), (1, 1), (4, 1), (5, 1)], 1);
}

/// "4 then stops an edition 1 return above ten": the kinds 1 to 3 have nine good
/// blocks at most and kind 4 has one.
#[test]
fn edition_1_has_ten_blocks_at_most() {
    for blocks in 11..=super::MOST_BLOCKS {
        // Parameters more than once: the first of them is not last.
        let mut more = FULL[..10].to_vec();
        more.resize(blocks, (4, 1));
        assert_eq!(Hand::new(&more).judged(), refused(4, 9));
        // A kind in more blocks: its third is not 12, or is above 8.
        for (place, third) in [(2, 8), (2, 12), (5, 8), (5, 12), (8, 8), (8, 12)] {
            let mut more = FULL[..10].to_vec();
            more[place].1 = third;
            let kind = more[place].0;
            more.splice(place + 1..place + 1, vec![(kind, 12); blocks - 10]);
            assert_eq!(Hand::new(&more).judged(), refused(4, place as u32));
        }
    }
}

/// What was number 8 is no fault in edition 2 either.
#[test]
fn after_and_before_in_edition_2() {
    for at in [10, 30] {
        let thinner = Hand::second(&[(1, 1), (4, 1)]).two(0, 0, at, 10_000);
        assert_eq!(thinner.judged(), accepted_second([1, 0, 0, 1, 0]));
    }
}
