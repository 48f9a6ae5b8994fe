//! Demand 3 in whole numbers: a double is "a whole number whose distance from
//! the exact subtotal, times 2 to the 53rd, is at most (n + 2) times the exact
//! subtotal", n the number of conversion rows.

const TWO_TO_53: u128 = 1 << 53;

/// The double as a whole number, if it is one that a subtotal could be.
pub fn whole(double: f64) -> Option<u128> {
    // Below 2^127 every whole double is a u128 without loss.
    let good = double.is_sign_positive() && double < 2f64.powi(127) && double.fract() == 0.0;
    good.then_some(double as u128)
}

/// Distance times 2^53, without overflow for any distance below 2^75.
fn scaled_distance(whole: u128, exact: u128) -> Option<u128> {
    whole.abs_diff(exact).checked_mul(TWO_TO_53)
}

/// Whether demand 3 holds for a return with `rows` conversion rows.
pub fn holds(double: f64, exact: u128, rows: u32) -> bool {
    let scaled = whole(double).and_then(|whole| scaled_distance(whole, exact));
    scaled.is_some_and(|scaled| scaled <= u128::from(rows + 2) * exact)
}

/// Distance times 2^53 over the exact subtotal, as a double to look at.
pub fn ratio(double: f64, exact: u128) -> f64 {
    let scaled = whole(double).and_then(|whole| scaled_distance(whole, exact));
    match (scaled, exact) {
        (Some(0), _) => 0.0,
        (Some(_), 0) | (None, _) => f64::INFINITY,
        (Some(scaled), exact) => scaled as f64 / exact as f64,
    }
}

#[cfg(test)]
mod tests {
    use super::*;

    #[test]
    fn the_bound_is_sharp() {
        // 2^53 x 4 with two rows: a distance of 16 is the last that holds.
        let exact = 4 * TWO_TO_53;
        assert!(holds((exact + 16) as f64, exact, 2));
        assert!(holds((exact - 16) as f64, exact, 2));
        assert!(!holds((exact + 24) as f64, exact, 2));
        assert!(!holds((exact - 20) as f64, exact, 2));
        assert_eq!(ratio((exact + 16) as f64, exact), 4.0);
    }

    #[test]
    fn zero_has_no_distance() {
        assert!(holds(0.0, 0, 0));
        for double in [-0.0, 1.0, -1.0, 0.5, f64::NAN, f64::INFINITY] {
            assert!(!holds(double, 0, 32), "{double}");
        }
        assert!(!holds(0.0, 1, 32));
    }
}
