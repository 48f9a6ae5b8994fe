use super::*;
use crate::doubles::subtotals;
use crate::explain;
use crate::judge::judge;
use crate::make::worked_day;
use crate::nation::Nation;
use crate::sheets::{sheets, NUMBERS};

/// The figures of a return, those of its crops last.
fn figures_of(bytes: &[u8]) -> [u64; NUMBERS] {
    let figures = sheets(bytes).expect("an accepted return").numbers();
    let mut numbers = [0; NUMBERS];
    numbers.copy_from_slice(figures.as_flattened());
    numbers
}

/// "have the same figures in every other sheet", and so the doubles, the heaviest rows and
/// the national line are the same.
#[test]
fn crops_change_no_other_figure() {
    let mut ways = [[0; 2]; WAYS.len()];
    let mut editions = [[0; 3]; 3];
    let [mut trees, mut full] = [0; 2];
    for index in 0..10_000 {
        let pair = pair(&mut Rng::for_input(248, index));
        let both = [&pair.first, &pair.second];
        for bytes in both {
            assert_eq!(judge(bytes).answer(), 0, "{}", pair.how);
        }
        assert_eq!(
            differ_elsewhere(&pair.first, &pair.second),
            None,
            "{}",
            pair.how
        );
        let [first, second] = both.map(|bytes| figures_of(bytes));
        let (others, crops) = first.split_at(NUMBERS - 15);
        assert_eq!(others, &second[..NUMBERS - 15], "{}", pair.how);
        let [a, b] = both.map(|bytes| subtotals(bytes).expect("accepted").in_order());
        assert_eq!(a.map(f64::to_bits), b.map(f64::to_bits), "{}", pair.how);
        let [a, b] = both.map(|bytes| explain::text(bytes).as_bytes().to_vec());
        assert_eq!(a, b, "{}", pair.how);
        let [a, b] = both.map(|bytes| Nation::of(bytes).text());
        assert_eq!(a, b, "{}", pair.how);

        let way = WAYS.iter().position(|&way| way == pair.way);
        let same = crops == &second[NUMBERS - 15..];
        ways[way.expect("one of the ways")][usize::from(same)] += 1;
        let [a, b] = both.map(|bytes| usize::from(bytes[6]) - 1);
        editions[a][b] += 1;
        trees += u32::from(first[27 * 3 + 2] > 0);
        full += u32::from(both.iter().any(|bytes| bytes.len() == 22 * 512));
    }
    // The crops make a difference where they are others.
    assert!(ways[..4].iter().all(|way| way[0] > 500), "{ways:?}");
    assert!(ways[4][0] == 0 && ways[4][1] > 1_000, "{ways:?}");
    // Crops are in one of them, and it is no return of edition 1.
    assert_eq!(editions[0][0], 0);
    let often = editions.as_flattened()[1..].iter().all(|&times| times > 50);
    assert!(often, "{editions:?}");
    assert!(trees > 1_000 && full > 100, "{trees} {full}");
}

/// By hand, from the worked day: what is forced, and what is not.
#[test]
fn what_differs_by_hand() {
    let day = worked_day();
    let mut with = worked_day().moved_to(3);
    with.crop = vec![[5, 10_000, 130, 830, 250, 900, 4_853, 12, 5, 60, 7, 121]];
    let (day, with) = (day.to_bytes(), with.to_bytes());
    assert_eq!([day.len(), with.len()], [4 * 512, 5 * 512]);
    assert_eq!(differ_elsewhere(&day, &with), None);
    for at in [1, 3, 512 + 2, 512 + 8, 1_024 + 507] {
        let mut changed = with.clone();
        changed[at] ^= 1;
        assert_eq!(
            differ_elsewhere(&day, &changed),
            Some(at / 512),
            "byte {at}"
        );
    }
    // The crops themselves, the numbers of blocks, the editions and the checks may differ.
    for at in [2_048 + 1, 2_048 + 20, 4, 5, 6, 7, 508, 511] {
        let mut changed = with.clone();
        changed[at] ^= 1;
        assert_eq!(differ_elsewhere(&day, &changed), None, "byte {at}");
    }
    assert_eq!(differ_elsewhere(&day[512..], &with), Some(0));
    assert_eq!(differ_elsewhere(&with, &day[..1_536]), Some(3));
}
