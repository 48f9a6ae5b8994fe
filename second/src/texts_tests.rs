//! The maker makes what it says.

use super::*;
use crate::fault::Sort;
use crate::kinds::RETURN_ROOM;
use crate::typed::{typed, MOST_BYTES};

fn answer(text: &[u8]) -> u32 {
    crate::pack::pack(text, &mut [0; RETURN_ROOM], &mut [0])
}

fn shown(case: &TextCase) -> String {
    let text = case.bytes[..case.bytes.len().min(3_000)].escape_ascii();
    format!("{}\n{}", case.how, text.to_string().replace("\\n", "\n"))
}

/// Whatever the style, a good text packs to the return of its rows.
#[test]
fn good_texts_pack() {
    for index in 0..6_000 {
        let mut rng = Rng::for_input(345, index);
        let (edition, lists) = rows::good(&mut rng);
        let sheet = Sheet::of(&mut rng, edition, &lists);
        let case = spelled(&mut rng, String::new(), edition, &sheet);
        let found = typed(&case.bytes);
        let found = found.unwrap_or_else(|fault| panic!("{fault:?}: {}", shown(&case)));
        assert_eq!((found.edition, found.lists), (edition, lists));
        assert_eq!(answer(&case.bytes), 0);
    }
}

/// Each way brings its fault about in a text that was good.
#[test]
fn each_way_has_its_fault() {
    for (nth, way) in WAYS.iter().enumerate() {
        for index in 0..250 {
            let mut rng = Rng::for_input(346, (1_000 * nth + index) as u64);
            let (edition, lists) = rows::good(&mut rng);
            let mut sheet = Sheet::of(&mut rng, edition, &lists);
            (way.bring)(&mut rng, &mut sheet);
            let how = format!("{}: {}", way.number, way.name);
            let case = spelled(&mut rng, how, edition, &sheet);
            match typed(&case.bytes) {
                Ok(_) => panic!("no fault: {}", shown(&case)),
                Err(fault) => {
                    assert_eq!(
                        fault.sort.number(),
                        way.number,
                        "{fault:?}: {}",
                        shown(&case)
                    )
                }
            }
        }
    }
    // Fault 1 is that of a length alone.
    for number in 2..=10 {
        assert!(WAYS.iter().any(|way| way.number == number));
    }
}

/// Rows that are not written have no fault, and each number comes.
#[test]
fn unwritten_texts_have_no_fault() {
    let mut given = std::collections::BTreeMap::new();
    for index in 0..6_000 {
        let case = unwritten(&mut Rng::for_input(347, index));
        let answer = answer(&case.bytes);
        assert!(answer == 0 || answer >= 5_000, "{answer}: {}", shown(&case));
        let key = if answer / 1000 == 10 {
            answer
        } else {
            answer / 1000
        };
        *given.entry(key).or_insert(0) += 1;
    }
    for key in [
        5, 6, 7, 12, 13, 14, 10_000, 10_004, 10_005, 10_006, 10_007, 10_008,
    ] {
        assert!(
            given.get(&key).is_some_and(|&times| times > 30),
            "{given:?}"
        );
    }
    assert!(given.get(&0).copied().unwrap_or(0) < 600, "{given:?}");
}

/// Texts at the greatest length, and above it, as good as they were.
#[test]
fn long_texts() {
    let [mut good, mut above, mut exact] = [0; 3];
    for index in 0..600 {
        let case = long(&mut Rng::for_input(348, index));
        let is_above = case.bytes.len() > MOST_BYTES;
        exact += usize::from(case.bytes.len() == MOST_BYTES);
        match typed(&case.bytes) {
            Ok(_) => good += 1,
            Err(fault) => {
                assert_eq!(fault.sort == Sort::Long, is_above);
                above += usize::from(is_above);
            }
        }
    }
    assert!(
        good > 150 && above > 200 && exact > 150,
        "{good} {above} {exact}"
    );
}

/// Every fault and every acceptance comes often among random texts.
#[test]
fn every_answer_comes_often() {
    let mut given = [0; 11];
    let mut written = 0;
    for index in 0..20_000 {
        let case = case(&mut Rng::for_input(349, index));
        match answer(&case.bytes) {
            answer @ 0..=10 => given[answer as usize] += 1,
            _ => written += 1,
        }
    }
    assert!(given[0] > 6_000 && written > 2_000, "{given:?} {written}");
    assert!(given.iter().all(|&times| times > 60), "{given:?}");
}
