use super::*;
use crate::bound::holds;
use crate::inputs;
use crate::make::{Rows, FIRST_WITH_IDS, WITH_IDS};
use crate::rng::Rng;
use crate::sheets::Worksheets;

/// Demand 3 on every accepted input of a short run of the comparison.
#[test]
fn demand_3_holds() {
    let mut accepted = 0;
    for index in 0..20_000 {
        let case = inputs::with_figures(index, &mut Rng::for_input(81, index as u64));
        let Ok(checked) = check(&case.bytes) else {
            continue;
        };
        accepted += 1;
        let figures = Worksheets::of(checked);
        let exact = [figures.onsite, figures.offsite, figures.decay];
        for (double, exact) in Subtotals::of(checked).in_order().into_iter().zip(exact) {
            assert!(holds(double, exact, checked.counts.rows[0]), "{}", case.how);
        }
    }
    assert!(accepted > 5_000, "{accepted}");
}

#[test]
fn the_order_shows_in_the_bits() {
    let row = [
        1, 999_983, 9_973, 0, 331, 997, 991, 337, 983, 977, 999_979, 9_967, 0, 332, 971,
    ];
    let mut rows = Rows {
        conversion: vec![row; 3],
        parameters: vec![[0; 6]],
        ..Rows::default()
    };
    for (id, row) in (0u32..).zip(&mut rows.conversion) {
        row[0] = id;
        row[1] -= 17 * id;
    }
    rows.cover_with_more(&mut Rng::new(84), 0);
    let chain = |factors: [f64; 5]| factors.into_iter().reduce(|a, b| a * b).unwrap_or(0.0);
    let areas = [999_983.0, 999_966.0, 999_949.0];
    let on_site = areas.map(|area| chain([area, 9_973.0, 331.0, 997.0, 991.0]));
    let off_site = areas.map(|area| chain([area, 9_973.0, 337.0, 983.0, 977.0]));
    let decay = [chain([999_979.0, 9_967.0, 332.0, 1_000.0, 971.0]); 3];
    let due = [on_site, off_site, decay].map(|[a, b, c]| 0.0 + a + b + c);
    let found = subtotals(&rows.to_bytes()).expect("good rows").in_order();
    assert_eq!(found.map(f64::to_bits), due.map(f64::to_bits));
}

/// The edition and the kinds above 4 change no double.
#[test]
fn editions_have_the_same_doubles() {
    let mut rng = Rng::new(83);
    for count in [1, 13, 32] {
        let mut rows = Rows::good(&mut rng, [count; 3]);
        let first = subtotals(&rows.to_bytes()).expect("good rows").in_order();
        let mut counts = [count; WITH_IDS.len()];
        counts[..FIRST_WITH_IDS].fill(0);
        rows = Rows {
            conversion: rows.conversion,
            harvest: rows.harvest,
            ..Rows::good_in(&mut rng, 2, counts)
        };
        let second = subtotals(&rows.to_bytes()).expect("good rows").in_order();
        assert_eq!(first.map(f64::to_bits), second.map(f64::to_bits));
    }
}

#[test]
fn no_rows_are_plus_zero() {
    let rows = Rows {
        parameters: vec![[0; 6]],
        ..Rows::default()
    };
    for code in 0..3 {
        let mut room = [0xAA; 9];
        assert_eq!(subtotal(&rows.to_bytes(), code, &mut room), 0);
        assert_eq!(room, [0, 0, 0, 0, 0, 0, 0, 0, 0xAA]);
    }
}

#[test]
fn refusals_come_in_order() {
    let good = Rows::good(&mut Rng::new(82), [2, 0, 0]).to_bytes();
    let mut bad = good.clone();
    bad[0] ^= 1;
    for (bytes, code, room, due) in [
        (&bad, 3, 0, 2000),
        (&good, 3, 0, 11_000),
        (&good, u32::MAX, 8, 11_000),
        (&good, 2, 7, 9000),
        (&good, 0, 0, 9000),
        (&good, 2, 8, 0),
    ] {
        let mut lent = vec![0xAA; room];
        assert_eq!(subtotal(bytes, code, &mut lent), due);
        assert!(due == 0 || lent.iter().all(|&byte| byte == 0xAA));
    }
}
