//! Decimal numbers as a field of a text has them (rows as text, rule 8): "one digit or more;
//! then, or not, a mark and one digit or more".

use std::iter::repeat_n;

/// What is wrong with a field, in the order in which it is tried.
#[derive(Clone, Copy, Debug, PartialEq, Eq)]
pub enum Wrong {
    /// It is no number.
    Number,
    /// "More decimals than the field has [..], whatever they are."
    Decimals,
    /// "Above 4,294,967,295 units."
    Large,
}

/// One more than the largest number of 32 bits: nothing above it is told apart.
const TOO_LARGE: u64 = 1 << 32;

/// The units that a field says, each worth one in its last decimal. The mark is a point, and
/// a comma where that is allowed.
pub fn units(field: &[u8], decimals: usize, comma: bool) -> Result<u32, Wrong> {
    let is_mark = |&byte: &u8| byte == b'.' || (comma && byte == b',');
    let (whole, part) = match field.iter().position(is_mark) {
        None => (field, None),
        Some(at) => (&field[..at], Some(&field[at + 1..])),
    };
    if !all_digits(whole) || !part.is_none_or(all_digits) {
        return Err(Wrong::Number);
    }
    let part = part.unwrap_or_default();
    let missing = decimals.checked_sub(part.len());
    let missing = repeat_n(&b'0', missing.ok_or(Wrong::Decimals)?);
    let digits = whole.iter().chain(part).chain(missing);
    small(digits).ok_or(Wrong::Large)
}

/// A field of "digits alone, at most 4,294,967,295".
pub fn whole(field: &[u8]) -> Option<u32> {
    all_digits(field).then(|| small(field)).flatten()
}

fn all_digits(piece: &[u8]) -> bool {
    !piece.is_empty() && piece.iter().all(u8::is_ascii_digit)
}

/// The number that these digits are, however many, if it fits 32 bits.
fn small<'a>(digits: impl IntoIterator<Item = &'a u8>) -> Option<u32> {
    let digits = digits.into_iter();
    let number = digits.fold(0, |number, digit| {
        TOO_LARGE.min(10 * number + u64::from(digit - b'0'))
    });
    u32::try_from(number).ok()
}

/// So many units "with all their decimals", a point as mark.
pub fn spelled(units: u32, decimals: usize) -> String {
    // At least one digit before the mark.
    let mut digits = format!("{units:0>width$}", width = decimals + 1);
    if decimals > 0 {
        digits.insert(digits.len() - decimals, '.');
    }
    digits
}

#[cfg(test)]
mod tests {
    use super::*;
    use crate::rng::Rng;

    fn points(field: &str, decimals: usize) -> Result<u32, Wrong> {
        units(field.as_bytes(), decimals, false)
    }

    /// "2.00 or 2 kha is 200 units of 0.01 kha."
    #[test]
    fn missing_decimals_are_zeros() {
        for (field, decimals, due) in [
            ("2.00", 2, 200),
            ("2.0", 2, 200),
            ("2", 2, 200),
            ("0", 0, 0),
            ("0.0001", 4, 1),
            ("0.1", 4, 1_000),
            ("000.5", 3, 500),
            ("0007", 0, 7),
            ("4294967295", 0, u32::MAX),
            ("429496.7295", 4, u32::MAX),
            ("42949672.95", 2, u32::MAX),
            (
                "00000000000000000000000000000000000000000000042949672.95",
                2,
                u32::MAX,
            ),
        ] {
            assert_eq!(points(field, decimals), Ok(due), "{field}");
        }
    }

    #[test]
    fn no_numbers() {
        for field in [
            "", ".", ".5", "5.", "1.2.3", "1..2", "-1", "+1", "1e3", "1E3", "5%", "1 000", "1'000",
            " 1", "1 ", "\"1", "1\"", "x", "1x", "0x1", "1_0", "1.-5", "1.5.", "\u{661}", "1\r",
            "1,5", "1,234.5", "1\0",
        ] {
            assert_eq!(points(field, 3), Err(Wrong::Number), "{field:?}");
        }
        for byte in (0..=255u8).filter(|byte| !byte.is_ascii_digit() && *byte != b'.') {
            assert_eq!(units(&[b'1', byte, b'1'], 3, false), Err(Wrong::Number));
        }
    }

    /// "a comma too where the separator is a semicolon or a tab"
    #[test]
    fn commas() {
        let commas = |field: &str| units(field.as_bytes(), 3, true);
        assert_eq!(commas("1,234"), Ok(1_234));
        assert_eq!(commas("1,2"), commas("1.2"));
        for field in ["1,2.3", "1.2,3", "1,2,3", ",5", "5,", ",", "1,.5"] {
            assert_eq!(commas(field), Err(Wrong::Number), "{field}");
        }
    }

    /// Number before decimals, decimals before large.
    #[test]
    fn the_first_is_told() {
        for (field, decimals, due) in [
            ("2.000", 2, Wrong::Decimals),
            ("7.0", 0, Wrong::Decimals),
            ("99999999999999999999.001", 2, Wrong::Decimals),
            ("2.000x", 2, Wrong::Number),
            ("99999999999999999999x", 2, Wrong::Number),
            ("42949672.96", 2, Wrong::Large),
            ("42949673", 2, Wrong::Large),
            ("4294967296", 0, Wrong::Large),
            ("4294967297", 0, Wrong::Large),
            ("18446744073709551616", 0, Wrong::Large),
            ("18446744073709551617", 0, Wrong::Large),
            ("340282366920938463463374607431768211457", 0, Wrong::Large),
        ] {
            assert_eq!(points(field, decimals), Err(due), "{field}");
        }
        assert_eq!(points(&"9".repeat(100_000), 4), Err(Wrong::Large));
        assert_eq!(points(&format!("{}7", "0".repeat(100_000)), 4), Ok(70_000));
    }

    #[test]
    fn editions_are_digits_alone() {
        let whole = |field: &str| whole(field.as_bytes());
        assert_eq!(whole("0003"), Some(3));
        assert_eq!(whole("4294967295"), Some(u32::MAX));
        for field in ["", "4294967296", "4294967297", "1.0", "-1", " 1", "1,0"] {
            assert_eq!(whole(field), None, "{field}");
        }
    }

    #[test]
    fn spelled_by_hand() {
        for (units, decimals, due) in [
            (200, 2, "2.00"),
            (0, 3, "0.000"),
            (7, 0, "7"),
            (25, 4, "0.0025"),
            (u32::MAX, 1, "429496729.5"),
        ] {
            assert_eq!(spelled(units, decimals), due);
        }
    }

    #[test]
    fn what_is_spelled_is_read() {
        let mut rng = Rng::new(341);
        for _ in 0..20_000 {
            let bits = 1 + rng.below(32);
            let (number, decimals) = (rng.word() >> (32 - bits), rng.below(5));
            assert_eq!(points(&spelled(number, decimals), decimals), Ok(number));
        }
    }
}
