//! Good returns made for the sake of their heaviest rows: ties and near ties,
//! subtotals of zero, and parts that doubles can't tell apart.

use crate::case::Case;
use crate::make::{Rows, AFTER, BEFORE, FIRST_WITH_IDS, MOST_ROWS, SUMMED, WITH_IDS};
use crate::rng::Rng;

/// What a row's part of a subtotal is the product of: area, difference, fraction,
/// oxidised (for decay always 1,000) and carbon fraction.
pub type Factors = [u32; 5];

/// Where a conversion row has the area of each period.
const AREAS: [usize; 2] = [1, 10];
const MOST: Factors = [1_000_000, 10_000, 1_000, 1_000, 1_000];

/// Parts of on-site or off-site carbon that differ by at most 14 units of 10^-12
/// kt C, the second being the larger. As doubles they are the same.
const ALIKE: [[Factors; 2]; 3] = [
    [
        [918_825, 589, 807, 807, 831],
        [112_724, 4_801, 941, 910, 632],
    ],
    [
        [407_759, 1_831, 821, 927, 981],
        [860_146, 868, 938, 917, 868],
    ],
    [
        [544_172, 1_243, 827, 827, 989],
        [881_885, 767, 993, 923, 738],
    ],
];
/// The same of decay, where parts differ by 1,000 at least.
const ALIKE_DECAY: [[Factors; 2]; 3] = [
    [
        [737_552, 9_284, 887, 1_000, 801],
        [998_093, 6_409, 989, 1_000, 769],
    ],
    [
        [675_001, 9_073, 977, 1_000, 826],
        [980_149, 6_303, 927, 1_000, 863],
    ],
    [
        [950_307, 6_055, 895, 1_000, 957],
        [754_484, 8_891, 977, 1_000, 752],
    ],
];

/// Two factors of parts that look alike, for a subtotal by its code.
pub fn alike(rng: &mut Rng, code: usize) -> [Factors; 2] {
    rng.pick(if code == 2 { &ALIKE_DECAY } else { &ALIKE })
}

/// A random return of this kind.
pub fn case(rng: &mut Rng) -> Case {
    let conversion = match rng.below(3) {
        0 => rng.pick(&[1, 2, 3, 12, 13, 24, 25, 32]),
        1 => 2 + rng.below(4),
        _ => 1 + rng.below(MOST_ROWS),
    };
    let mut counts = [0; WITH_IDS.len()].map(|_| rng.pick(&[0, 0, 1, 13]));
    counts[0] = conversion;
    if rng.one_in(2) {
        counts[FIRST_WITH_IDS..].fill(0);
    }
    let mut rows = Rows::good_in_any(rng, counts);
    let first = rng.below(3);
    let codes = 1 + rng.below(3);
    let mut how = String::from("rows by weight");
    for code in (0..codes).map(|turn| (first + turn) % 3) {
        how += &format!(", {} of code {code}", weigh(rng, &mut rows, code));
    }
    rows.cover_with_more(rng, 0);
    Case {
        how,
        bytes: rows.to_bytes(),
    }
}

/// Gives the rows their parts of one subtotal.
fn weigh(rng: &mut Rng, rows: &mut Rows, code: usize) -> &'static str {
    let rows = &mut rows.conversion;
    let [one, other] = [0; 2].map(|_| rng.below(rows.len()));
    match rng.below(7) {
        0 => {
            rows.iter_mut().for_each(|row| lose(rng, row, code));
            "zero"
        }
        1 => {
            rows.iter_mut().for_each(|row| lose(rng, row, code));
            let factors = drawn(rng, 1);
            set(rng, &mut rows[one], code, factors);
            "one row alone"
        }
        2 => {
            lighten(rng, rows, code);
            let [light, heavy] = alike(rng, code);
            set(rng, &mut rows[one], code, light);
            set(rng, &mut rows[other], code, heavy);
            "parts alike as doubles"
        }
        3 => {
            lighten(rng, rows, code);
            let factors = drawn(rng, 900);
            set(rng, &mut rows[one], code, factors);
            let mut near = turned(rng, factors, code);
            near[rng.below(2)] -= 1;
            set(rng, &mut rows[other], code, near);
            "parts nearly the same"
        }
        way => {
            // Some rows of one part; way 6: the largest there is, which only an
            // unsigned word holds.
            lighten(rng, rows, code);
            let factors = if way == 6 { MOST } else { drawn(rng, 2) };
            for row in rows.iter_mut() {
                if rng.one_in(3) {
                    let factors = turned(rng, factors, code);
                    set(rng, row, code, factors);
                }
            }
            "parts the same"
        }
    }
}

/// Factors from so many thousandths of their limits up to the limits.
fn drawn(rng: &mut Rng, thousandths: u32) -> Factors {
    MOST.map(|most| rng.from_to(most / 1_000 * thousandths, most))
}

/// The same product by other fields.
fn turned(rng: &mut Rng, factors: Factors, code: usize) -> Factors {
    let [area, difference, fraction, oxidised, carbon] = factors;
    match rng.below(4) {
        0 if code < 2 => [area, difference, oxidised, carbon, fraction],
        1 => [area, difference, carbon, oxidised, fraction],
        2 if area % 2 == 0 && difference <= MOST[1] / 2 => {
            [area / 2, difference * 2, fraction, oxidised, carbon]
        }
        _ => factors,
    }
}

/// Sets a row's part of one subtotal; the other fractions give way.
pub fn set(rng: &mut Rng, row: &mut [u32; 15], code: usize, factors: Factors) {
    let [area, difference, fraction, oxidised, carbon] = factors;
    let period = usize::from(code == 2);
    row[AREAS[period]] = area;
    row[AFTER[period]] = rng.from_to(0, MOST[1] - difference);
    row[BEFORE[period]] = row[AFTER[period]] + difference;
    let mut left = 1_000 - fraction;
    for at in SUMMED {
        row[at] = row[at].min(left);
        if at != SUMMED[code] {
            left -= row[at];
        }
    }
    row[SUMMED[code]] = fraction;
    if code == 2 {
        row[14] = carbon;
    } else {
        row[SUMMED[code] + 1] = oxidised;
        row[SUMMED[code] + 2] = carbon;
    }
}

/// Rows with hardly any area in the period of a subtotal, now and then.
fn lighten(rng: &mut Rng, rows: &mut [[u32; 15]], code: usize) {
    let most = rng.pick(&[0, 1, 9, MOST[0]]);
    for row in rows {
        let area = &mut row[AREAS[usize::from(code == 2)]];
        *area = (*area).min(most);
    }
}

/// Takes a row's part of one subtotal away, by one of its factors.
fn lose(rng: &mut Rng, row: &mut [u32; 15], code: usize) {
    let period = usize::from(code == 2);
    match rng.below(4) {
        0 => row[AREAS[period]] = 0,
        1 => row[BEFORE[period]] = rng.from_to(0, row[AFTER[period]]),
        2 => row[SUMMED[code]] = 0,
        _ if code == 2 => row[14] = 0,
        _ => row[SUMMED[code] + rng.pick(&[1, 2])] = 0,
    }
}

#[cfg(test)]
mod tests {
    use super::*;
    use crate::judge::judge;

    #[test]
    fn all_are_good() {
        for index in 0..5_000 {
            let case = case(&mut Rng::for_input(131, index));
            assert_eq!(judge(&case.bytes).answer(), 0, "{}", case.how);
        }
    }

    /// Multiplied as the doubles are, the parts are the same; exactly, the second
    /// is larger.
    #[test]
    fn doubles_cant_tell_them_apart() {
        for [light, heavy] in ALIKE.into_iter().chain(ALIKE_DECAY) {
            let double = |factors: Factors| factors.into_iter().map(f64::from).product::<f64>();
            let exact = |factors: Factors| factors.into_iter().map(u64::from).product::<u64>();
            assert_eq!(double(light), double(heavy));
            let by = exact(heavy) - exact(light);
            assert!((1..=1_000).contains(&by), "{by}");
        }
    }
}
