//! Numbers 5 to 7, in edition 1, and what was number 8.

use super::{accepted, lone, one_conversion, refused, Hand, Verdict};

#[test]
fn the_worked_day_is_accepted() {
    let mut day = Hand::new(&[(1, 1), (2, 1), (3, 1), (4, 1)])
        .four(0, 0, 0, 7)
        .four(0, 0, 4, 200);
    for (i, value) in [1000, 100, 400, 900, 500, 200, 900, 500]
        .into_iter()
        .enumerate()
    {
        day = day.two(0, 0, 8 + 2 * i, value);
    }
    day = day.four(0, 0, 24, 300);
    for (i, value) in [1000, 100, 300, 500].into_iter().enumerate() {
        day = day.two(0, 0, 28 + 2 * i, value);
    }
    // Stock 1, 0, 680, 1000, 500.
    day = day
        .four(1, 0, 0, 1)
        .two(1, 0, 6, 680)
        .four(1, 0, 8, 1000)
        .two(1, 0, 12, 500);
    // Harvest 1, 500, 950, 300, 0.
    day = day
        .four(2, 0, 0, 1)
        .four(2, 0, 4, 500)
        .two(2, 0, 8, 950)
        .four(2, 0, 12, 300);
    for (i, value) in [500, 12, 60, 10, 7, 121].into_iter().enumerate() {
        day = day.two(3, 0, 4 + 2 * i, value);
    }
    assert_eq!(day.judged(), accepted([1, 1, 1, 1]));
}

#[test]
fn fractions() {
    let with = |decay| {
        one_conversion()
            .two(0, 0, 12, 500)
            .two(0, 0, 18, 300)
            .two(0, 0, 32, decay)
    };
    assert_eq!(with(200).judged(), accepted([1, 0, 0, 1]));
    assert_eq!(with(201).judged(), refused(7, 0));
    // The other fractions don't count towards the sum.
    let others = [14, 16, 20, 22, 34];
    let full = others
        .into_iter()
        .fold(with(200), |hand, at| hand.two(0, 0, at, 1000));
    assert_eq!(full.judged(), accepted([1, 0, 0, 1]));
}

/// "8 is never given again": after may be above before in either period.
#[test]
fn after_and_before() {
    for at in [8, 28] {
        let with = |after| one_conversion().two(0, 0, at, 100).two(0, 0, at + 2, after);
        for after in [0, 100, 101, 10_000] {
            assert_eq!(with(after).judged(), accepted([1, 0, 0, 1]));
        }
        assert_eq!(with(10_001).judged(), refused(6, 0));
    }
    let both = one_conversion().two(0, 0, 10, 10_000).two(0, 0, 30, 1);
    assert_eq!(both.judged(), accepted([1, 0, 0, 1]));
}

#[test]
fn ids() {
    let two = |first, second| {
        Hand::new(&[(3, 2), (4, 1)])
            .four(0, 0, 0, first)
            .four(0, 1, 0, second)
            .judged()
    };
    assert_eq!(two(0, u32::MAX), accepted([0, 0, 2, 1]));
    assert_eq!(two(0x7FFF_FFFF, 0x8000_0000), accepted([0, 0, 2, 1]));
    assert_eq!(two(0, 0), refused(5, 1));
    assert_eq!(two(u32::MAX, 0), refused(5, 1));
    assert_eq!(two(u32::MAX, u32::MAX), refused(5, 1));
    assert_eq!(two(0x0100, 0x00FF), refused(5, 1));
    // On across the blocks of one kind, and anew in the next kind.
    let across = |id| {
        Hand::new(&[(1, 12), (1, 1), (2, 1), (4, 1)])
            .ids(0, 12, 100)
            .ids(1, 1, id)
            .judged()
    };
    assert_eq!(across(112), accepted([13, 1, 0, 1]));
    assert_eq!(across(111), refused(5, 12));
    assert_eq!(across(50), refused(5, 12));
}

#[test]
fn limits() {
    // Kind, offset, width, limit.
    let mut fields = vec![(1, 4, 4, 1_000_000), (1, 24, 4, 1_000_000), (2, 4, 1, 1)];
    fields.extend([8, 10, 28, 30].map(|at| (1, at, 2, 10_000)));
    fields.extend([12, 14, 16, 18, 20, 22, 32, 34].map(|at| (1, at, 2, 1_000)));
    fields.extend([(2, 6, 2, 10_000), (2, 8, 4, 10_000_000), (2, 12, 2, 1_000)]);
    fields.extend([4, 12, 16].map(|at| (3, at, 4, 10_000_000)));
    fields.push((3, 8, 2, 10_000));
    for (kind, at, width, limit) in fields {
        let with = |value: u32| {
            let hand = Hand::new(&[(kind, 1), (4, 1)]);
            match width {
                1 => hand.byte(Hand::at(0, 0, at), value as u8),
                2 => hand.two(0, 0, at, value as u16),
                _ => hand.four(0, 0, at, value),
            }
        };
        assert!(
            matches!(with(limit).judged(), Verdict::Accepted(_)),
            "kind {kind} at {at}"
        );
        assert_eq!(
            with(limit + 1).judged(),
            refused(6, 0),
            "kind {kind} at {at}"
        );
        assert_eq!(
            with(u32::MAX).judged(),
            refused(6, 0),
            "kind {kind} at {at}"
        );
    }
    for at in (4..16).step_by(2) {
        assert_eq!(lone().two(0, 0, at, 1_000).judged(), accepted([0, 0, 0, 1]));
        assert_eq!(lone().two(0, 0, at, 1_001).judged(), refused(6, 0));
    }
}

#[test]
fn a_lower_number_wins_from_a_higher_place() {
    let base = || Hand::new(&[(1, 3), (4, 1)]).ids(0, 3, 0);
    // What was number 8 at a lower place is no fault.
    let after = base().two(0, 0, 10, 1);
    assert_eq!(
        after.two(0, 1, 12, 1_000).two(0, 1, 18, 1).judged(),
        refused(7, 1)
    );
    let fractions = base().two(0, 0, 12, 1_000).two(0, 0, 18, 1);
    assert_eq!(fractions.two(1, 0, 4, 1_001).judged(), refused(6, 12));
    let limit = base().four(0, 0, 4, 1_000_001);
    assert_eq!(limit.four(0, 2, 0, 1).judged(), refused(5, 2));
    let id = base().four(0, 1, 0, 0);
    assert_eq!(id.byte(512 + 507, 1).judged(), refused(4, 1));
    let zero = base().byte(507, 1);
    assert_eq!(zero.byte(512 + 7, 1).judged(), refused(3, 1));
}
