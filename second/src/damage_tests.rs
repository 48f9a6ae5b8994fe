use super::*;
use crate::judge::{judge, Refusal, Verdict};
use crate::make::Rows;

/// Damage of 1 to 3 on a good return is always given with its own number, and
/// damage of 4 mostly: a doubled full block may be good, and a record more may
/// be at fault with its id only.
#[test]
fn each_number_broken_alone_is_given() {
    let mut rng = Rng::new(21);
    for number in 1..=4 {
        let mut other = 0;
        for _ in 0..4_000 {
            let mut bytes = Rows::any_good(&mut rng).to_bytes();
            let how = break_number(&mut rng, &mut bytes, number);
            match judge(&bytes) {
                Verdict::Refused(Refusal { number: given, .. }) if given == number => {}
                verdict if number == 4 && verdict_is_later(verdict) => other += 1,
                verdict => panic!("{how}: {verdict:?}"),
            }
        }
        assert!(other < 400, "number {number}: {other} others");
    }
}

fn verdict_is_later(verdict: Verdict) -> bool {
    !matches!(verdict, Verdict::Refused(Refusal { number: ..4, .. }))
}

/// Depth by depth, random blocks get past more numbers.
#[test]
fn random_blocks_reach_every_number() {
    let mut rng = Rng::new(22);
    for (depth, number) in [(0, 3), (1, 4), (2, 4), (3, 5), (4, 5), (5, 6)] {
        let given = (0..200).filter(|_| {
            let verdict = judge(&random_blocks(&mut rng, depth));
            matches!(verdict, Verdict::Refused(Refusal { number: given, .. }) if given == number)
        });
        assert!(given.count() > 20, "depth {depth}");
    }
}
