use super::*;
use crate::make::Rows;
use crate::sorts::sorts_of;

/// Rows of these land systems, types, areas now and then, and carbon.
fn sorts(soils: &[[u32; 5]]) -> Vec<&'static str> {
    let row = |(id, &[system, own, now, then, carbon]): (u32, &[u32; 5])| {
        [id, system, own, now, then, carbon, 1, 1, 1]
    };
    let rows = Rows {
        edition: 2,
        parameters: vec![[0; 6]],
        soil: (0..).zip(soils).map(row).collect(),
        ..Rows::default()
    };
    sorts_of(&SORTS, &rows)
}

#[test]
fn sorts_by_hand() {
    assert_eq!(sorts(&[]), ["no soils"]);
    let few = "1 to 12 soils";
    assert_eq!(sorts(&[[1, 9, 5, 5, 7]]), [few]);
    let [one, none, land] = [
        "several soils of one type",
        "several soils, none even by itself",
        "soils uneven by land system",
    ];
    // 5 x 2 now and 3 x 7 then of 8.
    let loss = [[1, 9, 5, 3, 2], [2, 9, 3, 5, 7]];
    assert_eq!(sorts(&loss), [few, one, "soils that lose", none, land]);
    let gain = [[1, 9, 5, 3, 7], [1, 9, 3, 5, 2]];
    assert_eq!(sorts(&gain), [few, one, "soils that gain", none]);
    let same = [[1, 9, 5, 3, 7], [1, 9, 3, 5, 7]];
    let change = "areas that change, and no gain";
    assert_eq!(sorts(&same), [few, one, change, none]);
    let ends = [[1, 0, 5, 5, 7], [1, 65_535, 0, 0, 7]];
    let even = "several soils, each even by itself";
    assert_eq!(
        sorts(&ends),
        [
            few,
            "soils of 2 to 4 types",
            "soils of the types 0 and 65,535",
            even
        ]
    );
    let five: Vec<[u32; 5]> = (1..6).map(|own| [1, own, own, own, 7]).collect();
    let different = "5 soils and more, all of different types";
    let more = "soils of 5 types and more";
    assert_eq!(sorts(&five), [few, more, different, even]);
    let six = [&five[..], &[[1, 5, 6, 6, 7]]].concat();
    assert_eq!(sorts(&six), [few, more, even]);
}

/// By hand: each area then is the next one now, and the last is the first.
#[test]
fn a_chain_is_even_behind_its_last() {
    let late = "12 soils of a type, even only behind the last";
    let chain = |count: u32| -> Vec<[u32; 5]> {
        let link = |nth| [1, 7, 10 + nth, 10 + (nth + 1) % count, 3];
        (0..count).map(link).collect()
    };
    assert!(!sorts(&chain(11)).contains(&late));
    assert!(sorts(&chain(12)).contains(&late));
    // An even row in front, and one behind.
    let even = [1, 7, 4, 4, 3];
    assert!(!sorts(&[&[even], &chain(12)[..]].concat()).contains(&late));
    assert!(!sorts(&[&chain(12)[..], &[even]].concat()).contains(&late));
    // Another type between them changes nothing.
    let mut other = chain(13);
    other.insert(5, [1, 8, 4, 4, 3]);
    let found = sorts(&other);
    assert!(found.contains(&late) && found.contains(&"13 to 24 soils"));
}

#[test]
fn a_largest_stock_has_all_limits() {
    let with = |row: [u32; 9]| {
        let rows = Rows {
            edition: 2,
            parameters: vec![[0; 6]],
            soil: vec![row],
            ..Rows::default()
        };
        sorts_of(&SORTS, &rows).contains(&"a largest stock")
    };
    let largest = [0, 0, 0, 100_000, 100_000, 10_000, 300, 300, 300];
    assert!(with(largest));
    for (at, value) in [(5, 9_999), (6, 299), (7, 299), (8, 299)] {
        let mut row = largest;
        row[at] = value;
        assert!(!with(row), "field {at}");
    }
}
