use super::*;
use crate::judge::judge;
use crate::sheets::sheets;

/// Exact halves come on both sides of zero, the smallest of them and large ones too, and
/// so do the figures one step beside them.
#[test]
fn halves_have_both_signs() {
    let mut rng = Rng::new(211);
    let [mut half, mut smallest, mut large, mut beside] = [[0; 2]; 4];
    for _ in 0..3_000 {
        let rows = near_half(&mut rng);
        let found = sheets(&rows.to_bytes()).expect("good rows").soil;
        assert_eq!(i128::from(found), gain(&rows.soil));
        let side = usize::from(found < 0);
        let off = (found.rem_euclid(200_000) - 100_000).abs();
        half[side] += i32::from(off == 0);
        smallest[side] += i32::from(found.abs() == 100_000);
        large[side] += i32::from(off == 0 && found.abs() > 1_000_000_000_000);
        beside[side] += i32::from(off == 1);
    }
    let often = |counts: [i32; 2]| counts.iter().all(|&count| count > 50);
    assert!(often(half) && often(beside), "{half:?} {beside:?}");
    assert!(often(smallest) && often(large), "{smallest:?} {large:?}");
}

/// The gain of two rows, whichever stands first.
#[test]
fn two_rows_bring_what_they_are_to() {
    let mut rng = Rng::new(212);
    for area in [0, 1, -1, 77, 100_000, -100_000] {
        for _ in 0..100 {
            assert_eq!(gain(&bring(&mut rng, ONE, area)), area);
            let by = rng.pick(&TONNES);
            assert_eq!(gain(&bring(&mut rng, by, area)), BELOW * area);
        }
    }
}

/// 16 stocks of 2.7 x 10^16 either way.
#[test]
fn large_soils_are_the_largest() {
    let mut rng = Rng::new(213);
    let mut full = [0; 2];
    for count in [1, 2, 3, 31, 32, 32, 32, 32].repeat(50) {
        let mut rows = Rows::good_in(&mut rng, 2, [0, 0, 0, 0, 0, count]);
        enlarge(&mut rng, &mut rows);
        assert_eq!(judge(&rows.to_bytes()).answer(), 0);
        let found = sheets(&rows.to_bytes()).expect("good rows").soil;
        let most = 27_000_000_000_000_000 * (count as i64 / 2);
        assert!(found.abs() <= most);
        full[usize::from(found < 0)] += i32::from(count == 32 && found.abs() == most);
    }
    assert!(full.iter().all(|&times| times > 30), "{full:?}");
}
