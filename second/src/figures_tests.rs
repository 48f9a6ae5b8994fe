use super::*;
use crate::judge::{check, judge, Verdict};
use crate::sheets::{exact_tonnes, sheets};

#[test]
fn all_are_accepted() {
    for index in 0..5_000 {
        let made = case(&mut Rng::for_input(51, index));
        let verdict = judge(&made.bytes);
        assert!(
            matches!(verdict, Verdict::Accepted(_)),
            "{}: {verdict:?}",
            made.how
        );
    }
}

#[test]
fn solutions_solve() {
    let mut rng = Rng::new(52);
    for _ in 0..2_000 {
        let below = rng.pick(&[
            30_000,
            3_000_000,
            3_000_000_000,
            3_000_000_000_000,
            7_000_000_000_000_000,
            70_000_000_000_000_000_000,
        ]);
        let times = u128::from(rng.from_to(1, 23_000_000));
        let rest = near_half(&mut rng, below);
        let (c, step) = solve(times, rest, below);
        let off = (rest + below - times * c % below) % below;
        assert!(
            c < step && off < below / step,
            "{times} {rest} {below}: {c}"
        );
        assert_eq!(times * step % below, 0);
    }
}

/// Both signs of an exact half of Q come often, and small ones among them.
#[test]
fn halves_of_q_have_both_signs() {
    let mut rng = Rng::new(53);
    let [mut up, mut down, mut small] = [0; 3];
    for _ in 0..1_000 {
        let p = sheets(&q_near_half(&mut rng).to_bytes())
            .expect("good rows")
            .p;
        if p.rem_euclid(3_000_000) == 1_500_000 {
            up += i32::from(p > 0);
            down += i32::from(p < 0);
            small += i32::from(p.abs() < 3_000_000_000);
        }
    }
    assert!(up > 100 && down > 100 && small > 100, "{up} {down} {small}");
}

#[test]
fn large_rows_carry() {
    let mut rng = Rng::new(54);
    let carried = (0..200).filter(|_| {
        let figures = sheets(&large(&mut rng).to_bytes()).expect("good rows");
        figures.onsite.max(figures.offsite).max(figures.decay) > u128::from(u64::MAX)
    });
    assert!(carried.count() > 60);
}

/// Exact halves of the uptake's CO2 come often, small ones and those beside too.
#[test]
fn halves_of_uptake_come() {
    let mut rng = Rng::new(55);
    let [mut half, mut small, mut beside] = [0; 3];
    for _ in 0..1_000 {
        let rows = uptake_near_half(&mut rng);
        let found = sheets(&rows.to_bytes()).expect("good rows").uptake;
        assert_eq!(u128::from(found), uptake(&rows));
        let rest = (11 * found) % 30_000;
        half += i32::from(rest == 15_000);
        small += i32::from(rest == 15_000 && found < 3_000_000);
        beside += i32::from(rest != 15_000 && rest.abs_diff(15_000) < 3);
    }
    assert!(
        half > 300 && small > 100 && beside > 100,
        "{half} {small} {beside}"
    );
}

/// Exact halves of the gases come at the smallest, 0.5 tonnes of CH4, and with
/// numerators beyond 64 bits.
#[test]
fn halves_of_gases_are_small_and_wide() {
    let mut rng = Rng::new(57);
    let [mut small, mut wide] = [0; 2];
    for _ in 0..2_000 {
        let bytes = gas_near_half(&mut rng).to_bytes();
        let exact = exact_tonnes(check(&bytes).expect("good rows"));
        let halves = exact[3..7].iter().filter(|exact| exact.half().is_some());
        for half in halves {
            small += i32::from(2 * half.above == half.below as i128);
            wide += i32::from(half.above > i128::from(u64::MAX));
        }
    }
    assert!(small > 20 && wide > 200, "{small} {wide}");
}
