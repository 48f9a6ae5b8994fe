//! Numbers 1 to 4, in edition 1.

use super::{accepted, judge, lone, one_conversion, refused, Hand};

#[test]
fn lone_parameters_have_check_18() {
    let bytes = lone().checked();
    assert_eq!(bytes[508..], [18, 0, 0, 0]);
    assert_eq!(judge(&bytes), accepted([0, 0, 0, 1]));
}

#[test]
fn check_17_is_refused() {
    let mut bytes = lone().checked();
    bytes[508] = 17;
    assert_eq!(judge(&bytes), refused(2, 0));
    bytes[508] = 18;
    bytes[511] = 1;
    assert_eq!(judge(&bytes), refused(2, 0));
}

#[test]
fn lengths() {
    let good = lone().checked();
    assert_eq!(judge(&good[..511]), refused(1, 0));
    assert_eq!(judge(&[]), refused(1, 0));
    assert_eq!(judge(&[0; 513]), refused(1, 0));
    assert_eq!(judge(&[0; 5120]), refused(3, 0));
    assert_eq!(judge(&[0; 5121]), refused(1, 0));
    assert_eq!(judge(&[0; 5632]), refused(3, 0));
    assert_eq!(judge(&[0; 6656]), refused(3, 0));
    assert_eq!(judge(&[0; 7168]), refused(3, 0));
    assert_eq!(judge(&[0; 8192]), refused(3, 0));
    assert_eq!(judge(&[0; 9728]), refused(3, 0));
    // Thirteen blocks by the first request, three more by the one on savannas, by the one
    // on soils and by the one on crop residues.
    const LONGEST: usize = 11_264;
    assert_eq!(judge(&[0; LONGEST - 1]), refused(1, 0));
    assert_eq!(judge(&[0; LONGEST]), refused(3, 0));
    assert_eq!(judge(&[0; LONGEST + 1]), refused(1, 0));
    assert_eq!(judge(&[0; LONGEST + 512]), refused(1, 0));
}

#[test]
fn headers() {
    assert_eq!(lone().byte(0, 5).judged(), refused(3, 0));
    assert_eq!(lone().byte(0, 0).judged(), refused(3, 0));
    for at in 2..8 {
        let wrong = one_conversion().byte(512 + at, 7);
        assert_eq!(wrong.judged(), refused(3, 1), "offset {at}");
    }
    // A wrong check further on comes before.
    let mut bytes = one_conversion().byte(0, 9).checked();
    bytes[512 + 508] ^= 1;
    assert_eq!(judge(&bytes), refused(2, 1));
}

#[test]
fn order_of_kinds() {
    assert_eq!(Hand::new(&[(2, 1), (1, 1), (4, 1)]).judged(), refused(4, 1));
    assert_eq!(Hand::new(&[(1, 1), (4, 1), (2, 1)]).judged(), refused(4, 1));
    assert_eq!(Hand::new(&[(1, 1), (3, 1)]).judged(), refused(4, 1));
    assert_eq!(Hand::new(&[(4, 1), (4, 1)]).judged(), refused(4, 0));
    assert_eq!(Hand::new(&[(1, 1)]).judged(), refused(4, 0));
}

#[test]
fn counts() {
    for count in [0, 13, 255] {
        assert_eq!(Hand::new(&[(1, count), (4, 1)]).judged(), refused(4, 0));
    }
    for count in [0, 2, 12, 13] {
        assert_eq!(Hand::new(&[(1, 1), (4, count)]).judged(), refused(4, 1));
    }
    // Not 12 though the next block has its kind.
    let short = Hand::new(&[(3, 11), (3, 1), (4, 1)])
        .ids(0, 11, 0)
        .ids(1, 1, 20);
    assert_eq!(short.judged(), refused(4, 0));
    let filled = |third| {
        Hand::new(&[(2, 12), (2, 12), (2, third), (4, 1)])
            .ids(0, 12, 0)
            .ids(1, 12, 12)
            .ids(2, usize::from(third), 24)
    };
    assert_eq!(filled(8).judged(), accepted([0, 32, 0, 1]));
    assert_eq!(filled(9).judged(), refused(4, 2));
    assert_eq!(filled(12).judged(), refused(4, 2));
    // With a fourth of its kind the third is at fault whatever its count: 12
    // is above 8, and any other is not 12.
    for third in [8, 12] {
        let four = Hand::new(&[(2, 12), (2, 12), (2, third), (2, 1), (4, 1)]);
        assert_eq!(four.judged(), refused(4, 2));
    }
}

#[test]
fn zeros() {
    // The kind, and the ranges of a used record where zero is due.
    let areas = [
        (1, [36..40, 36..40]),
        (2, [5..6, 14..40]),
        (3, [10..12, 20..40]),
        (4, [0..4, 16..40]),
    ];
    for (kind, areas) in areas {
        let kinds: &[(u8, u8)] = if kind == 4 {
            &[(4, 1)]
        } else {
            &[(kind, 1), (4, 1)]
        };
        for at in 8..508 {
            let due = at >= 48 || areas.iter().any(|area| area.contains(&(at - 8)));
            let verdict = Hand::new(kinds).byte(at, 1).judged();
            assert_eq!(verdict == refused(4, 0), due, "kind {kind}, offset {at}");
        }
    }
}
