use super::*;
use crate::case::Case;
use crate::input::Input;
use crate::judge::judge;
use crate::kinds::RETURN_ROOM;
use crate::lists::RowLists;
use crate::make::{Rows, WITH_IDS};
use crate::rng::Rng;
use crate::sorts::sorts_of;
use crate::{mix, row_sweeps, rowlists, sweep};

fn return_of(crops: &[CropRow]) -> Rows {
    Rows {
        edition: 2,
        parameters: vec![[0; 6]],
        crop: crops.to_vec(),
        ..Rows::default()
    }
}

fn sorts(crops: &[CropRow]) -> Vec<&'static str> {
    sorts_of(&SORTS, &return_of(crops))
}

const LARGEST: CropRow = [
    1, 10_000_000, 1_000, 1_000, 1_000, 1_000, 10_000, 0, 0, 0, 0, 0,
];

#[test]
fn sorts_by_hand() {
    let row = |production: u32, carbon: u32| [1, production, 1, 1, 1, 1, carbon, 1, 2, 3, 4, 5];
    assert_eq!(sorts(&[]), ["no crops"]);
    let (one, within) = ("1 to 12 crops", "a crop within one word");
    assert_eq!(sorts(&[row(1, 1)]), [one, within]);
    assert_eq!(sorts(&[row(1, 1_000)]), [one, within]);
    assert_eq!(sorts(&[row(0, 1_000)]), [one, "a crop without carbon"]);
    let fine = "a crop with a carbon fraction above 1,000";
    assert_eq!(sorts(&[row(1, 1_001)]), [one, within, fine]);
    let (wide, most) = ("a crop beyond one word", "a largest crop");
    assert_eq!(sorts(&[LARGEST]), [one, wide, fine, most]);
    let three = "25 to 32 crops";
    let all = "32 largest crops";
    assert_eq!(sorts(&[LARGEST; 32]), [three, wide, fine, most, all]);
    assert_eq!(sorts(&[LARGEST; 31]), [three, wide, fine, most]);
    let mut some = [LARGEST; 13];
    some[12] = row(1, 1);
    let (two, own) = ("13 to 24 crops", "crops with ratios of their own");
    assert_eq!(sorts(&some), [two, within, wide, fine, most, own]);
    some[12][7] = 0;
    assert_eq!(sorts(&some), [two, within, wide, fine, most]);
}

/// By hand: carbon of 18,446,744,073,709,551,616 is 2^64, one more than a word.
#[test]
fn a_word_is_the_bound() {
    let with = |production: u32| [[1, production, 512, 512, 512, 512, 8_192, 0, 0, 0, 0, 0]];
    let wide = "a crop beyond one word";
    assert_eq!((CROPS.carbon)(&with(32_768)[0]), 1 << 64);
    assert!(sorts(&with(32_768)).contains(&wide));
    assert!(!sorts(&with(32_767)).contains(&wide));
}

/// What counts of rows with this answer.
fn came(rows: &Rows, answer: u32) -> Vec<String> {
    let mut coverage = Coverage::default();
    let residues = Residues::new([Due::Once; 3], &mut coverage);
    residues.note(answer, || rows.lists(), &mut coverage);
    let came = coverage.came();
    came.iter().map(|(name, _)| name.to_string()).collect()
}

#[test]
fn counts_by_hand() {
    assert!(came(&return_of(&[]), 0).is_empty());
    let some = "accepted, with crops";
    assert_eq!(came(&return_of(&[LARGEST; 31]), 0), [some]);
    let all = "accepted, 32 crops";
    assert_eq!(came(&return_of(&[LARGEST; 32]), 0), [some, all]);
    let mut full = Rows::good_in(&mut Rng::new(243), 3, [25; WITH_IDS.len()]);
    let blocks = "accepted, the most blocks";
    assert_eq!(came(&full, 0), [some, blocks]);
    full.stock.truncate(24);
    assert_eq!(came(&full, 0), [some]);
    assert!(came(&full, 9000).is_empty());
}

/// The crop at the place, behind the parameters, and no other.
#[test]
fn limits_by_hand() {
    let limits = [
        10_000_000, 1_000, 1_000, 1_000, 1_000, 10_000, 1_000, 1_000, 1_000, 1_000, 1_000,
    ];
    for (at, (limit, field)) in (1..).zip(limits.into_iter().zip(&fields(8)[1..])) {
        let mut crops = [LARGEST; 14];
        let due = [format!("6, {} of a crop above its limit", field.name)];
        crops[13][at] = limit;
        assert!(came(&return_of(&crops), 6025).is_empty());
        crops[13][at] = limit + 1;
        assert_eq!(came(&return_of(&crops), 6025), due);
        assert!(came(&return_of(&crops), 6024).is_empty());
        assert!(came(&return_of(&crops), 6000).is_empty());
        assert!(came(&return_of(&crops), 5025).is_empty());
    }
}

/// Counts returns, or rows for the writer, with the answers that are due.
fn noted<I: Input>(inputs: impl Iterator<Item = I>, answer: impl Fn(&I) -> u32) -> Coverage {
    let mut coverage = Coverage::default();
    let residues = Residues::new([Due::Once; 3], &mut coverage);
    for input in inputs {
        residues.note(answer(&input), || input.lists(), &mut coverage);
    }
    coverage
}

/// The makers and the sweeps, each a few of its inputs from all over them, leave none of it
/// to chance.
#[test]
fn all_of_it_comes_often() {
    let judged = |case: &Case| judge(&case.bytes).answer();
    let drawn = (0..10_000).map(|index| mix::case(&mut Rng::for_input(244, index)));
    let swept = (0..sweep::size()).step_by(5);
    let swept = swept.map(|index| sweep::case(index, &mut Rng::for_input(245, index as u64)));
    let coverage = noted(drawn.chain(swept), judged);
    assert!(coverage.each_came(25), "{:?}", coverage.came());

    let written = |lists: &RowLists| lists.write(&mut [0; RETURN_ROOM], &mut [0]);
    let drawn = (0..10_000).map(|index| rowlists::case(&mut Rng::for_input(246, index)));
    let swept = (0..row_sweeps::size()).step_by(3);
    let swept = swept.map(|index| row_sweeps::case(index, &mut Rng::for_input(247, index as u64)));
    let coverage = noted(drawn.chain(swept), written);
    assert!(coverage.each_came(25), "{:?}", coverage.came());
}
