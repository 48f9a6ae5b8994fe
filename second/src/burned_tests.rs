use super::*;
use crate::make::Rows;
use crate::sorts::sorts_of;

fn sorts(rows: &[Row]) -> Vec<&'static str> {
    let rows = Rows {
        edition: 2,
        stock: vec![[1, 0, 1, 1, 1]],
        parameters: vec![[0; 6]],
        savanna: rows.to_vec(),
        ..Rows::default()
    };
    sorts_of(&SORTS, &rows)
}

#[test]
fn sorts_by_hand() {
    let largest = [
        1, 1_000_000, 10_000, 1_000, 3, 1_000, 1_000, 1_000, 1_000, 0, 0, 0, 0, 0,
    ];
    let row = |live: u32, dead_carbon: u32| [1, 1, 1, 1, live, 1, 1, 1, dead_carbon, 1, 2, 3, 4, 5];
    assert_eq!(sorts(&[]), ["no savannas"]);
    let one = "1 to 12 savannas";
    assert_eq!(sorts(&[row(1_000, 1)]), [one, "a savanna all live"]);
    assert_eq!(sorts(&[row(0, 1)]), [one, "a savanna all dead"]);
    assert_eq!(sorts(&[row(0, 0)]), [one, "a savanna without carbon"]);
    assert_eq!(sorts(&[row(999, 0)]), [one]);
    assert_eq!(sorts(&[row(999, 1)]), [one, "a savanna live and dead"]);
    let [both, wide, most] = [
        "a savanna live and dead",
        "a savanna beyond one word",
        "a largest savanna",
    ];
    assert_eq!(sorts(&[largest]), [one, both, wide, most]);
    let three = "25 to 32 savannas";
    assert_eq!(
        sorts(&[largest; 32]),
        [three, both, wide, most, "32 largest savannas"]
    );
    assert_eq!(sorts(&[largest; 31]), [three, both, wide, most]);
    let mut all = [largest; 13];
    all[12] = row(1, 1);
    let own = "savannas with ratios of their own";
    assert_eq!(sorts(&all), ["13 to 24 savannas", both, wide, most, own]);
    all[12][9] = 0;
    assert_eq!(sorts(&all), ["13 to 24 savannas", both, wide, most]);
}

/// By hand: carbon of 18,446,744,073,709,551,616 is 2^64, one more than a word.
#[test]
fn a_word_is_the_bound() {
    let rows = |area: u32| [[1, area, 4_096, 512, 512, 512, 512, 0, 0, 0, 0, 0, 0, 0]];
    let wide = "a savanna beyond one word";
    assert_eq!(savanna_carbon(&rows(65_536)[0]), [1 << 64, 0]);
    assert!(sorts(&rows(65_536)).contains(&wide));
    assert!(!sorts(&rows(65_535)).contains(&wide));
}
