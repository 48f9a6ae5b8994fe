//! What the header for C says, against what this program has found by itself: of the version
//! of the header that it is written for, and not of an older one.

use crate::explain;
use crate::figures;
use crate::inputs;
use crate::kinds::{EDITIONS, KINDS, RETURN_ROOM};
use crate::rng::Rng;
use crate::sheets;
use crate::text::FIGURES;

/// The version that has all that this program has.
const VERSION: usize = 14;

/// The version that can pack and unpack.
const WITH_TEXTS: usize = 15;

/// A constant of the header.
fn in_header(name: &str) -> usize {
    let header = include_str!("../../include/niloferq.h");
    let mut words = header.lines().map(|line| line.split_whitespace());
    let found = words.find_map(|mut words| {
        let named = [words.next(), words.next()] == [Some("#define"), Some(name)];
        named.then(|| words.next()).flatten()
    });
    let value = found.and_then(|value| value.parse().ok());
    value.expect("the header has it")
}

fn is_older() -> bool {
    in_header("NILOFERQ_VERSION") < VERSION
}

#[test]
fn numbers_are_the_same() {
    if is_older() {
        return;
    }
    assert_eq!(in_header("NILOFERQ_FIGURES"), FIGURES);
    assert_eq!(in_header("NILOFERQ_KINDS"), KINDS.len());
    assert_eq!(in_header("NILOFERQ_EDITIONS"), *EDITIONS.end() as usize);
    assert_eq!(in_header("NILOFERQ_RETURN_ROOM"), RETURN_ROOM);
}

/// "Rooms that are always enough": the longest explanation is made by hand elsewhere.
#[test]
fn rooms_are_enough() {
    if is_older() {
        return;
    }
    assert!(in_header("NILOFERQ_EXPLAIN_ROOM") >= 375);
    let (lines, explanation) = (
        in_header("NILOFERQ_LINES_ROOM"),
        in_header("NILOFERQ_EXPLAIN_ROOM"),
    );
    for index in 0..5_000 {
        let case = figures::case(&mut Rng::for_input(233, index));
        assert!(sheets::text(&case.bytes).as_bytes().len() <= lines);
        let case = inputs::drawn_explained(&mut Rng::for_input(234, index));
        assert!(explain::text(&case.bytes).as_bytes().len() <= explanation);
    }
}

/// The longest reason and the longest text, each made by hand elsewhere.
#[test]
fn rooms_of_texts_are_enough() {
    if in_header("NILOFERQ_VERSION") < WITH_TEXTS {
        return;
    }
    assert!(in_header("NILOFERQ_PACK_WHY_ROOM") >= 149);
    assert!(in_header("NILOFERQ_UNPACK_ROOM") >= 18_288);
}
