use super::*;
use crate::make::{worked_day, Rows, WITH_IDS};
use crate::nations;
use crate::rng::Rng;

/// The worked day's lines, of the figures that the national line has.
const ONE: &str = "\
accepted 1
refused 0
E 340000000
K 775000
L 36000000
M 41500000
P 13250000000
Q 48583
report -48583
onsite 32400000000000
offsite 16200000000000
decay 40500000000000
co2 326700
oxidised_onsite 64800000000
charcoal_onsite 7200000000
oxidised_offsite 32400000000
charcoal_offsite 3600000000
unburned 72000000000
";

const NONE: &str = "\
accepted 0
refused 0
E 0
K 0
L 0
M 0
P 0
Q 0
report 0
onsite 0
offsite 0
decay 0
co2 0
oxidised_onsite 0
charcoal_onsite 0
oxidised_offsite 0
charcoal_offsite 0
unburned 0
";

fn text_of(file: &[u8]) -> String {
    Nation::of(file).text()
}

fn day() -> Vec<u8> {
    worked_day().to_bytes()
}

/// The worked day with a wrong check in its last block.
fn bad_day() -> Vec<u8> {
    let mut bytes = day();
    bytes[2_047] ^= 1;
    bytes
}

/// The lone parameters, all zero.
fn zeros() -> Vec<u8> {
    Rows {
        parameters: vec![[0; 6]],
        ..Rows::default()
    }
    .to_bytes()
}

#[test]
fn no_return() {
    assert_eq!(text_of(&[]), NONE);
}

#[test]
fn one_return() {
    assert_eq!(text_of(&day()), ONE);
    let due = ONE.to_string();
    assert_eq!(
        text_of(&[day(), zeros()].concat()),
        due.replace("accepted 1", "accepted 2")
    );
}

/// "A return present twice counts twice": all is doubled before it is rounded. Q is
/// 97,166.7 and not 2 x 48,583; co2 is 653,400.
#[test]
fn the_worked_day_twice() {
    let due = "accepted 2\nrefused 0\nE 680000000\nK 1550000\nL 72000000\nM 83000000\n\
        P 26500000000\nQ 97167\nreport -97167\nonsite 64800000000000\noffsite 32400000000000\n\
        decay 81000000000000\nco2 653400\noxidised_onsite 129600000000\ncharcoal_onsite 14400000000\n\
        oxidised_offsite 64800000000\ncharcoal_offsite 7200000000\nunburned 144000000000\n";
    assert_eq!(text_of(&[day(), day()].concat()), due);
}

/// "A refused return is listed by its position, from 1, with number and place and adds
/// nothing".
#[test]
fn good_refused_good() {
    let twice = text_of(&[day(), day()].concat());
    let found = text_of(&[day(), bad_day(), day()].concat());
    let due = twice.replace("refused 0\n", "refused 1\n");
    assert_eq!(found, format!("return 2 refused 2 3\n{due}"));
    let mut cleared = worked_day();
    cleared.harvest[0][1..].fill(0);
    let found = text_of(&[bad_day(), day(), cleared.to_bytes()].concat());
    let due = ONE.replace("refused 0\n", "refused 2\n");
    assert_eq!(
        found,
        format!("return 1 refused 2 3\nreturn 3 refused 12 0\n{due}")
    );
}

/// Each stop behind a good return: "everything before it is printed".
#[test]
fn stops() {
    let stopped = |more: &[u8]| {
        let found = text_of(&[&day(), more].concat());
        let line = found.strip_suffix(ONE).expect("all before it is printed");
        line.to_string()
    };
    let with_blocks = |blocks: u16, length: usize| {
        let mut bytes = vec![0; length];
        bytes[4..6].copy_from_slice(&blocks.to_le_bytes());
        bytes
    };
    for blocks in [0, 23, 24, 255, 256, 65_535] {
        let due = format!("stopped 2 blocks {blocks}\n");
        for length in [6, 7, 512, 23 * 512] {
            assert_eq!(stopped(&with_blocks(blocks, length)), due);
        }
    }
    let short = "stopped 2 short\n";
    for length in 1..6 {
        assert_eq!(stopped(&vec![0; length]), short);
        assert_eq!(stopped(&vec![255; length]), short);
    }
    for (blocks, length) in [(1, 6), (1, 511), (2, 512), (2, 1_023), (16, 16 * 512 - 1)] {
        assert_eq!(stopped(&with_blocks(blocks, length)), short);
    }
    for blocks in 17..=22 {
        let length = 512 * usize::from(blocks) - 1;
        assert_eq!(stopped(&with_blocks(blocks, length)), short);
    }
    assert_eq!(stopped(&day()[..2_047]), short);
    // A whole return behind it is none.
    let found = text_of(&[&day(), &with_blocks(0, 512)[..], &day()].concat());
    assert_eq!(found, format!("stopped 2 blocks 0\n{ONE}"));
    assert_eq!(text_of(&[0; 5]), format!("stopped 1 short\n{NONE}"));
    assert_eq!(text_of(&[0; 6]), format!("stopped 1 blocks 0\n{NONE}"));
}

/// "any byte after the 500th; its header is not looked at"
#[test]
fn a_501st_return() {
    let mut file = zeros().repeat(499);
    let accepted = |count: usize| NONE.replace("accepted 0", &format!("accepted {count}"));
    assert_eq!(text_of(&file), accepted(499));
    file.extend(zeros());
    assert_eq!(text_of(&file), accepted(500));
    for more in [&[0][..], &[0; 6], &[255; 512], &day()] {
        let found = text_of(&[&file, more].concat());
        assert_eq!(found, format!("stopped 501 many\n{}", accepted(500)));
    }
    // At position 500 the header is looked at.
    let short = &file[..500 * 512 - 1];
    assert_eq!(
        text_of(short),
        format!("stopped 500 short\n{}", accepted(499))
    );
    let bad = bad_day().repeat(501);
    let found = text_of(&bad);
    assert!(found.starts_with("return 1 refused 2 3\nreturn 2 refused 2 3\n"));
    let end = "return 500 refused 2 3\nstopped 501 many\naccepted 0\nrefused 500\nE 0\n";
    assert!(found.contains(end));
}

/// Twenty-two blocks are a return like any other; crops and soils add to no national
/// figure, and an uneven type is refused.
#[test]
fn crops_and_soils_in_a_file() {
    let mut full = Rows::good_in(&mut Rng::new(194), 3, [32; WITH_IDS.len()]);
    let [with, nineteen, sixteen] = [0, 1, 2].map(|less| {
        match less {
            0 => {}
            1 => full.crop.clear(),
            _ => full.soil.clear(),
        }
        let one = full.to_bytes();
        assert_eq!(one.len(), (22 - 3 * less) * 512);
        let found = Nation::of(&[one, day()].concat());
        assert_eq!((found.accepted, found.stopped), (2, None));
        found.text()
    });
    assert_eq!([&with, &nineteen], [&sixteen; 2]);
    let mut uneven = worked_day();
    uneven.edition = 2;
    uneven.soil = vec![[1, 1, 9, 2, 2, 1, 1, 1, 1], [2, 1, 7, 2, 3, 1, 1, 1, 1]];
    let found = text_of(&[uneven.to_bytes(), day()].concat());
    let due = ONE.replace("refused 0\n", "refused 1\n");
    assert_eq!(found, format!("return 1 refused 13 49\n{due}"));
}

/// Scattered trees add to E as land does, and are refused in edition 3 alone.
#[test]
fn trees_in_a_file() {
    let mut trees = worked_day();
    trees.stock[0][1] = 1;
    assert_eq!(text_of(&trees.to_bytes()), ONE);
    let second = trees.clone().moved_to(2).to_bytes();
    assert_eq!(text_of(&second), ONE);
    trees.edition = 3;
    let found = text_of(&[trees.to_bytes(), second].concat());
    let due = ONE.replace("refused 0\n", "refused 1\n");
    assert_eq!(found, format!("return 1 refused 14 12\n{due}"));
    assert_eq!(text_of(&trees.moved_to(3).to_bytes()), ONE);
}

/// It is the first header that cuts; the others are the judge's business.
#[test]
fn the_first_header_cuts() {
    let mut bytes = day();
    bytes[512 + 4] = 1;
    let found = text_of(&[bytes, day()].concat());
    assert!(
        found.starts_with("return 1 refused 2 1\naccepted 1\n"),
        "{found}"
    );
    // With one block in its header it is cut there, and the next block says four.
    let mut bytes = day();
    bytes[4] = 1;
    let found = text_of(&bytes);
    let due = "return 1 refused 2 0\nstopped 2 short\naccepted 0\nrefused 1\n";
    assert!(found.starts_with(due), "{found}");
}

/// 500 returns with everything at its limits: nothing overflows.
#[test]
fn the_largest_file() {
    let up = |id| {
        [
            id, 1_000_000, 10_000, 0, 0, 0, 0, 1_000, 1_000, 1_000, 0, 0, 0, 0, 0,
        ]
    };
    let mut rows = Rows {
        conversion: (0..32).map(up).collect(),
        stock: (0..32)
            .map(|id| [id, 0, 10_000, 10_000_000, 1_000])
            .collect(),
        harvest: (0..32).map(|id| [id, 10_000_000, 10_000, 0, 0]).collect(),
        parameters: vec![[1_000; 6]],
        ..Rows::default()
    };
    let totals = Nation::of(&rows.to_bytes().repeat(500)).totals;
    assert_eq!(
        (totals.e, totals.k),
        (16 * 10u128.pow(17), 16 * 10u128.pow(14))
    );
    assert_eq!((totals.l, totals.m), (16 * 10u128.pow(16), 0));
    assert_eq!(
        (totals.p, totals.offsite),
        (16 * 10i128.pow(19), 16 * 10u128.pow(22))
    );
    // All is burned off site, and oxidised: 500 times 3.2 x 10^17.
    assert_eq!(totals.matter, [0, 0, 16 * 10u128.pow(19), 0, 0]);
    // 11/3 of 1.6 x 10^14 tonnes of carbon, both.
    assert_eq!(
        totals.tonnes().map(Tonnes::rounded),
        [586_666_666_666_667; 2]
    );
    rows.stock.clear();
    rows.conversion.clear();
    rows.harvest
        .iter_mut()
        .for_each(|row| row[3..].fill(10_000_000));
    let totals = Nation::of(&rows.to_bytes().repeat(500)).totals;
    assert_eq!(
        (totals.m, totals.p),
        (192 * 10i128.pow(15), -192 * 10i128.pow(18))
    );
    assert_eq!(totals.tonnes()[0].rounded(), -704_000_000_000_000);
}

/// "rounded once from them", a half to the even neighbour: 5.5 and 5.5 are 11, three
/// times 5.5 are 16 and five times 28.
#[test]
fn halves_of_the_nation() {
    let mut rows = Rows {
        stock: vec![[1, 0, 1, 15_000, 1]],
        parameters: vec![[0; 6]],
        ..Rows::default()
    };
    let q = |rows: &Rows, times: usize| {
        let totals = Nation::of(&rows.to_bytes().repeat(times)).totals;
        totals.tonnes()[0].rounded()
    };
    assert_eq!([1, 2, 3, 5].map(|times| q(&rows, times)), [6, 11, 16, 28]);
    rows.stock.clear();
    rows.harvest = vec![[1, 15_000, 1, 0, 0]];
    rows.parameters[0][0] = 1;
    assert_eq!(
        [1, 2, 3, 5].map(|times| q(&rows, times)),
        [-6, -11, -16, -28]
    );
}

#[test]
fn rooms() {
    let (file, due) = (day(), ONE.as_bytes());
    for lent in [0, 1, due.len() - 1, due.len(), due.len() + 1, NATION_ROOM] {
        let mut room = vec![0xAA; lent];
        let fits = lent >= due.len();
        let length = nation(&file, &mut room);
        assert_eq!(length, if fits { due.len() } else { 0 });
        assert_eq!(room[..length], due[..length]);
        assert!(room[length..].iter().all(|&byte| byte == 0xAA));
    }
}

/// The longest text has a line for each of 500 refused returns, all at places of three
/// digits, and a stop; the figures are then 0.
#[test]
fn the_longest_text_has_room() {
    let mut last = Rows::good_in(&mut Rng::new(191), 2, [32; WITH_IDS.len()]);
    let types = last.soil.iter_mut().zip(0..);
    types.for_each(|(row, own)| (row[2], row[3], row[4]) = (100 - own, 5, 5));
    last.soil[31][3] = 4;
    let text = text_of(&last.to_bytes().repeat(501));
    assert!(text.starts_with("return 1 refused 13 223\n"));
    assert!(text.len() > 12_000, "{}", text.len());
    // All figures at most 40 bytes more.
    assert!(text.len() + 16 * 40 < NATION_ROOM);
}

/// "The totals equal those of the accepted returns in any order of the same returns."
#[test]
fn any_order() {
    let [mut shuffled, mut refused] = [0; 2];
    for index in 0..2_000 {
        let mut rng = Rng::for_input(192, index);
        let mut returns = nations::returns(&mut rng);
        let first = Nation::of(&returns.concat());
        nations::shuffle(&mut rng, &mut returns);
        let second = Nation::of(&returns.concat());
        assert_eq!(first.stopped.or(second.stopped), None);
        assert_eq!(first.refused.len(), second.refused.len());
        assert_eq!(
            (first.accepted, first.totals),
            (second.accepted, second.totals)
        );
        // Those that are accepted alone come to the same.
        returns.retain(|one| check(one).is_ok());
        let alone = Nation::of(&returns.concat());
        assert_eq!(
            (alone.accepted, alone.totals),
            (first.accepted, first.totals)
        );
        assert!(alone.refused.is_empty());
        shuffled += usize::from(first.refused != second.refused);
        refused += first.refused.len();
    }
    assert!(shuffled > 500 && refused > 2_000, "{shuffled} {refused}");
}

/// Against a plain reading: each return by itself, its own lines added up.
#[test]
fn the_sum_of_the_sheets() {
    for index in 0..500 {
        let mut rng = Rng::for_input(193, index);
        let returns = nations::returns(&mut rng);
        let mut due = Totals::default();
        for s in returns
            .iter()
            .filter_map(|one| crate::sheets::sheets(one).ok())
        {
            due.e += u128::from(s.e);
            due.k += u128::from(s.k);
            due.l += u128::from(s.l);
            due.m += i128::from(s.m);
            due.p += i128::from(s.p);
            due.onsite += s.onsite;
            due.offsite += s.offsite;
            due.decay += s.decay;
            let parts = due.matter.iter_mut().zip(s.matter);
            parts.for_each(|(total, part)| *total += u128::from(part));
        }
        assert_eq!(Nation::of(&returns.concat()).totals, due);
        assert_eq!(due.m, 100 * due.k as i128 - due.l as i128);
    }
}
