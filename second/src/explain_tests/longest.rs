//! How long a text can be: the room that C is told is always enough.

use super::*;
use crate::judge::tests::{full, FULL};

/// By hand: an id has at most ten digits and a part twenty, so that the lines have
/// at most 27, 42, 28, 43, 26 and 41 bytes, 207 in all. The five totals come to at most
/// 3.2 x 10^17: three of them have eighteen digits at most, and the other two seventeen.
/// Behind their names and spaces, 80 bytes with the ends of the lines, that is 168 more.
#[test]
fn the_longest_text_has_375_bytes() {
    let (area, share) = (1_000_000, 1_000);
    let row = |(id, (at, oxidised)): (u32, (usize, u32))| {
        let mut row = [
            id, area, 10_000, 0, 0, share, share, 0, share, share, area, 10_000, 0, 0, share,
        ];
        row[at] = share;
        if at < 13 {
            row[at + 1] = oxidised;
        }
        row
    };
    // Ten rows oxidised on site, off site and left to decay, and one of charcoal of each.
    let mut ways = [[(4, share); 10], [(7, share); 10], [(13, share); 10]].concat();
    ways.extend([(4, 0), (7, 0)]);
    let mut rows = worked_day();
    rows.conversion = (u32::MAX - 31..=u32::MAX).zip(ways).map(row).collect();
    rows.cover_with_more(&mut Rng::new(155), 0);
    let part = 10_000_000_000_000_000_000u64;
    let [tenths, one] = [100_000_000_000_000_000u64, 10_000_000_000_000_000];
    let due = format!(
        "heaviest_onsite 4294967264\nheaviest_onsite_part {part}\n\
         heaviest_offsite 4294967274\nheaviest_offsite_part {part}\n\
         heaviest_decay 4294967284\nheaviest_decay_part {part}\n\
         oxidised_onsite {tenths}\ncharcoal_onsite {one}\n\
         oxidised_offsite {tenths}\ncharcoal_offsite {one}\nunburned {tenths}\n"
    );
    assert_eq!(due.len(), 207 + 168);
    assert_eq!(text_of(&rows.to_bytes()), due);
}

/// Each number at its highest place and with as many digits as its values have,
/// number 3 at block 0 too, whose edition is the first one.
#[test]
fn refusals_are_shorter() {
    let header = |b: usize| (0..8).fold(full(), |hand, at| hand.byte(512 * b + at, 255));
    let b = FULL.len() - 1;
    let last = 512 * b;
    let savannas = FULL
        .iter()
        .position(|&(kind, _)| kind == 6)
        .expect("savannas");
    let mut unfit = full().checked();
    unfit[last..].fill(255);
    // The last row of a conversion block that is full, with an id of ten digits.
    let high = |hand: Hand, b: usize| {
        let (first, second, third) = (u32::MAX - 31, u32::MAX - 19, u32::MAX - 7);
        let hand = hand.ids(b, 12, first).ids(b + 1, 12, second);
        hand.ids(b + 2, 8, third)
    };
    let conversion = || high(full(), 0);
    let fractions = [12, 18, 32];
    let fractions = fractions
        .iter()
        .fold(conversion(), |hand, &at| hand.two(1, 11, at, 1_000));
    // Abandoned land, whose name is longer than savanna's and its places as long.
    let land = |b: usize| FULL[b].0 == 5;
    let land = (0..FULL.len()).find(|&b| land(b)).expect("abandoned land");
    let top = u32::MAX - 20;
    let ids = high(full(), land).four(land + 1, 10, 0, top);
    let ids = ids.four(land + 1, 11, 0, top);
    // As much as can be cleared, and a little less used: 15 digits each.
    let mut cleared = Rows::default();
    let row = |id| {
        let mut row = [0; 15];
        row[..4].copy_from_slice(&[id, 1_000_000, 10_000, 0]);
        row[7] = 1_000;
        row
    };
    cleared.conversion = (0..32).map(row).collect();
    // The last soil type, 32 rows of it from the last place that soils can have on.
    let soils = FULL.iter().position(|&(kind, _)| kind == 7).expect("soils");
    let uneven = (0..32).fold(high(full(), soils), |hand, nth| {
        let (b, r) = (soils + nth / 12, nth % 12);
        let hand = hand.two(b, r, 6, 65_535).four(b, r, 8, 100_000);
        hand.four(b, r, 12, if nth == 0 { 99_999 } else { 100_000 })
    });
    let crops = FULL.iter().position(|&(kind, _)| kind == 8).expect("crops");
    // The last stock row of an edition that has no trees.
    let trees = (0..FULL.len()).fold(high(full(), 3), |hand, b| hand.edition(b, 3));
    let trees = trees.byte(512 * 4 + 8 + 40 * 11 + 4, 1);
    let used = |id| [id, 9_999_999, 10_000, 0, 0];
    cleared.harvest = (0..32).map(used).collect();
    cleared.parameters = vec![[0; 6]];
    for (text, length) in [
        (text_of(&cleared.to_bytes()), 58),
        (explained(uneven), 110),
        (explained(trees), 81),
        (text_of(&unfit), 49),
        (explained(header(0)), 118),
        (explained(header(b)), 116),
        (explained(full().byte(last, 5)), 84),
        (explained(full().byte(last + 1, 255)), 72),
        (explained(full().byte(last - 511, 11)), 86),
        (explained(full().byte(last + 1, 12)), 76),
        (explained(full().byte(last + 507, 255)), 45),
        (explained(ids), 85),
        (explained(conversion().two(1, 11, 20, 65_535)), 132),
        (explained(conversion().four(1, 11, 24, u32::MAX)), 128),
        (
            explained(high(full(), savannas).four(savannas + 1, 11, 4, u32::MAX)),
            117,
        ),
        (
            explained(high(full(), soils).four(soils + 1, 11, 12, u32::MAX)),
            118,
        ),
        (
            explained(high(full(), crops).four(crops + 1, 11, 4, u32::MAX)),
            121,
        ),
        (explained(fractions), 108),
    ] {
        assert_eq!(text.len(), length, "{text}");
    }
}

/// Of the comparison's inputs none has a longer text.
#[test]
fn no_input_has_a_longer_text() {
    let mut longest = 0;
    for index in 0..20_000 {
        let case = inputs::drawn_explained(&mut Rng::for_input(153, index));
        longest = longest.max(text(&case.bytes).as_bytes().len());
    }
    assert!((300..=375).contains(&longest), "{longest}");
}
