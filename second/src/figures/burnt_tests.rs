use super::*;
use crate::judge::check;
use crate::make::{CROPS, SAVANNAS};
use crate::rounding::Tonnes;
use crate::sheets::{exact_tonnes, sheets, Worksheets, ROUNDED};

/// A kind with the name of its figures and the carbon among them.
type Sheet = (&'static Burnt, &'static str, fn(&Worksheets) -> u128);

static SHEETS: [Sheet; 2] = [
    (&SAVANNAS, "savanna", |s| s.savanna_carbon),
    (&CROPS, "crop", |s| s.crop_carbon),
];

/// The gases of a kind before they are rounded.
fn exact(rows: &Rows, name: &str) -> [Tonnes; GASES] {
    let all = exact_tonnes(check(&rows.to_bytes()).expect("good rows"));
    ["ch4", "co", "n2o", "nox"].map(|gas| {
        let own = format!("{name}_{gas}");
        let at = ROUNDED.iter().position(|&name| name == own);
        all[at.expect("a rounded figure")]
    })
}

/// Carbon set in one row, whatever was in it.
#[test]
fn carbon_is_set() {
    let mut rng = Rng::new(151);
    for (of, name, _) in &SHEETS {
        for _ in 0..2_000 {
            let rows = &mut large_alone(&mut rng, of);
            let row = rows.row(of.kind, 0);
            let (digit, power) = (rng.from_to(0, 9_999), rng.below(SPARE));
            (of.set_carbon)(&mut rng, row, digit, power);
            let due = u128::from(digit) * 1_000_000u128.pow(power as u32);
            assert_eq!((of.carbon)(row), due, "{name} {row:?}");
        }
    }
}

/// Exact halves of each gas come often, below a hundred tonnes (at the smallest,
/// 0.5 tonnes of CH4, too) and with numerators beyond 64 bits, and so do the
/// figures one step beside them.
#[test]
fn halves_are_small_and_wide() {
    let mut rng = Rng::new(152);
    for (of, name, _) in &SHEETS {
        let [mut half, mut beside] = [[0; GASES]; 2];
        let [mut smallest, mut small, mut wide] = [0; 3];
        for _ in 0..2_000 {
            let rows = gas_near_half(&mut rng, of);
            for (gas, exact) in exact(&rows, name).iter().enumerate() {
                let below = exact.below as i128;
                let off = (2 * exact.above.rem_euclid(below) - below).abs();
                half[gas] += i32::from(off == 0);
                beside[gas] += i32::from(off > 0 && off < 50_000_000);
                smallest += i32::from(2 * exact.above == below);
                small += i32::from(off == 0 && exact.above < 100 * below);
                wide += i32::from(off == 0 && exact.above > i128::from(u64::MAX));
            }
        }
        let often = |counts: [i32; GASES]| counts.iter().all(|&count| count > 60);
        assert!(often(half) && often(beside), "{name} {half:?} {beside:?}");
        assert!(smallest > 5 && small > 50, "{name} {smallest} {small}");
        assert!(wide > 300, "{name} {wide}");
    }
}

/// The sums here are the sheets'.
#[test]
fn sums_are_the_sheets() {
    let mut rng = Rng::new(153);
    for (of, name, carbon) in &SHEETS {
        for _ in 0..500 {
            let rows = gas_near_half(&mut rng, of);
            let found = sheets(&rows.to_bytes()).expect("good rows");
            let due: u128 = rows.each(of.kind).map(of.carbon).sum();
            assert_eq!(carbon(&found), due, "{name}");
            for (gas, exact) in exact(&rows, name).iter().enumerate() {
                let (times, below) = by(of, gas);
                assert_eq!(exact.above, (times * gas_sum(&rows, of, gas)) as i128);
                assert_eq!(exact.below, below);
            }
        }
    }
}

#[test]
fn large_rows_are_the_largest() {
    let mut rng = Rng::new(154);
    for (of, name, carbon) in &SHEETS {
        let full = (0..400).filter(|_| {
            let rows = large_alone(&mut rng, of);
            let most = of.largest * rows.len(of.kind) as u128;
            carbon(&sheets(&rows.to_bytes()).expect("good rows")) == most
        });
        assert!(full.count() > 100, "{name}");
    }
}
