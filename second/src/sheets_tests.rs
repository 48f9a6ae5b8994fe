//! The worked day to the letter, and the paper's single table of cases.

use super::*;
use crate::figures::case;
use crate::make::{worked_day, Rows};
use crate::rng::Rng;
use crate::text::LINES_ROOM;

#[path = "uptake_tests.rs"]
mod uptake;

const WORKED_TEXT: &str = "\
E 340000000
K 775000
L 36000000
M 41500000
O 20750000000
P 13250000000
Q 48583
report -48583
onsite 32400000000000
offsite 16200000000000
R 48600000000000
decay 40500000000000
co2 326700
ch4 518
co 4536
n2o 4
nox 129
uptake 0
uptake_co2 0
thinner 0
savanna_carbon 0
savanna_ch4 0
savanna_co 0
savanna_n2o 0
savanna_nox 0
soil 0
soil_change 0
scattered 0
oxidised_onsite 64800000000
charcoal_onsite 7200000000
oxidised_offsite 32400000000
charcoal_offsite 3600000000
unburned 72000000000
crop_carbon 0
crop_ch4 0
crop_co 0
crop_n2o 0
crop_nox 0
";

fn zero_parameters() -> Rows {
    Rows {
        parameters: vec![[0; 6]],
        ..Rows::default()
    }
}

fn figures_of(rows: &Rows) -> Worksheets {
    sheets(&rows.to_bytes()).expect("the rows are good")
}

fn text_of(bytes: &[u8]) -> String {
    String::from_utf8(text(bytes).as_bytes().to_vec()).expect("the text is ASCII")
}

#[test]
fn a_the_worked_day() {
    assert_eq!(text_of(&worked_day().to_bytes()), WORKED_TEXT);
}

#[test]
fn b_lone_parameters_are_all_zero() {
    let bytes = zero_parameters().to_bytes();
    assert_eq!(bytes[508..], [18, 0, 0, 0]);
    let names: Vec<&str> = WORKED_TEXT
        .lines()
        .filter_map(|line| line.split(' ').next())
        .collect();
    let due: String = names.iter().map(|name| format!("{name} 0\n")).collect();
    assert_eq!(text_of(&bytes), due);
    // (g): with check 17 it is refused.
    let mut wrong = bytes;
    wrong[508] = 17;
    assert_eq!(text_of(&wrong), "refused 2 0\n");
    // (j)
    assert_eq!(text_of(&wrong[..511]), "refused 1 0\n");
}

/// E = amount, so P = 100 x amount: P, Q and the report.
fn with_stock(amount: u32) -> (i64, i64, i64) {
    let mut rows = zero_parameters();
    rows.stock = vec![[1, 0, 1, amount, 1]];
    let figures = figures_of(&rows);
    (figures.p, figures.q, figures.report())
}

/// K = F, so P = -100 x F x N.
fn with_harvest(f: u32) -> (i64, i64, i64) {
    let mut rows = zero_parameters();
    rows.harvest = vec![[1, f, 1, 0, 0]];
    rows.parameters[0][0] = 1;
    let figures = figures_of(&rows);
    (figures.p, figures.q, figures.report())
}

/// (c) and (d) keep their figures: 5.5 has 6 as its even neighbour.
#[test]
fn c_d_a_half_beside_six() {
    assert_eq!(with_stock(15_000), (1_500_000, 6, -6));
    assert_eq!(with_stock(14_999), (1_499_900, 5, -5));
    assert_eq!(with_harvest(15_000), (-1_500_000, -6, 6));
    assert_eq!(with_harvest(14_999), (-1_499_900, -5, 5));
}

/// "P = 4,500,000 then gives 16, not 17", with the neighbours of the half, and
/// the same below zero.
#[test]
fn halves_of_q_go_to_the_even_neighbour() {
    assert_eq!(with_stock(44_999), (4_499_900, 16, -16));
    assert_eq!(with_stock(45_000), (4_500_000, 16, -16));
    assert_eq!(with_stock(45_001), (4_500_100, 17, -17));
    assert_eq!(with_harvest(44_999), (-4_499_900, -16, 16));
    assert_eq!(with_harvest(45_000), (-4_500_000, -16, 16));
    assert_eq!(with_harvest(45_001), (-4_500_100, -17, 17));
    // 27.5 and 38.5
    assert_eq!(with_stock(75_000), (7_500_000, 28, -28));
    assert_eq!(with_harvest(105_000), (-10_500_000, -38, 38));
}

/// Off-site carbon of one row: it, R and co2. Its harvest is above what it clears.
fn with_offsite(area: u32) -> (u128, u128, u64) {
    let mut rows = zero_parameters();
    rows.conversion = vec![[1, area, 1, 0, 0, 0, 0, 15, 100, 1000, 0, 0, 0, 0, 0]];
    rows.harvest = vec![[1, 0, 0, 1, 0]];
    let figures = figures_of(&rows);
    (figures.offsite, figures.r(), figures.co2)
}

#[test]
fn e_conversion_carbon_of_a_half() {
    assert_eq!(with_offsite(1_000), (1_500_000_000, 1_500_000_000, 6));
    assert_eq!(with_offsite(999), (1_498_500_000, 1_498_500_000, 5));
}

/// 16.5 and 27.5 tonnes of CO2.
#[test]
fn halves_of_co2_go_to_the_even_neighbour() {
    assert_eq!(with_offsite(2_999).2, 16);
    assert_eq!(with_offsite(3_000).2, 16);
    assert_eq!(with_offsite(3_001).2, 17);
    assert_eq!(with_offsite(5_000).2, 28);
    // R and decay are rounded together: 1.5 x 10^9 each are 11 tonnes, not 12.
    let mut rows = zero_parameters();
    rows.conversion = vec![[1, 1_000, 1, 0, 15, 100, 1000, 0, 0, 0, 1_000, 1, 0, 15, 100]];
    let figures = figures_of(&rows);
    assert_eq!((figures.r(), figures.decay), (1_500_000_000, 1_500_000_000));
    assert_eq!(figures.co2, 11);
}

/// On-site carbon of `area` x 10^9 with these parameters.
fn with_onsite(area: u32, parameters: [u32; 6]) -> Worksheets {
    let mut row = [0; 15];
    row[..7].copy_from_slice(&[1, area, 1, 0, 1_000, 1_000, 1_000]);
    figures_of(&Rows {
        conversion: vec![row],
        parameters: vec![parameters],
        ..Rows::default()
    })
}

/// By hand, each gas at 1, 3, 5 and 7 times its smallest half: 0.5, 3.5, 5.5 and
/// 11.5 tonnes.
#[test]
fn halves_of_gases_go_to_the_even_neighbour() {
    let times = [1, 3, 5, 7];
    let ch4 = times.map(|times| with_onsite(times, [0, 375, 0, 0, 0, 0]).ch4);
    assert_eq!(ch4, [0, 2, 2, 4]);
    let co = times.map(|times| with_onsite(2 * times, [0, 0, 750, 0, 0, 0]).co);
    assert_eq!(co, [4, 10, 18, 24]);
    let n2o = times.map(|times| with_onsite(7 * times, [0, 0, 0, 1_000, 500, 0]).n2o);
    assert_eq!(n2o, [6, 16, 28, 38]);
    let nox = times.map(|times| with_onsite(7 * times, [0, 0, 0, 1_000, 0, 500]).nox);
    assert_eq!(nox, [12, 34, 58, 80]);
}

#[test]
fn f_the_largest_on_site_rows() {
    let mut rows = zero_parameters();
    rows.conversion = (0..32)
        .map(|id| {
            [
                id, 1_000_000, 10_000, 0, 1000, 1000, 1000, 0, 0, 0, 0, 0, 0, 0, 0,
            ]
        })
        .collect();
    rows.parameters[0] = [1_000; 6];
    let figures = figures_of(&rows);
    assert_eq!(figures.onsite, 320_000_000_000_000_000_000);
    // 11 x 3.2 x 10^20 / (3 x 10^9) and so on, by hand.
    assert_eq!(figures.co2, 1_173_333_333_333);
    assert_eq!(figures.ch4, 426_666_666_667);
    assert_eq!(figures.co, 746_666_666_667);
    assert_eq!(figures.n2o, 502_857_142_857);
    assert_eq!(figures.nox, 1_051_428_571_429);
    assert!(text_of(&rows.to_bytes()).contains("\nonsite 320000000000000000000\n"));
}

/// The far ends of worksheet 5-1: nothing overflows. P is largest where nothing is used
/// beyond what is cleared.
#[test]
fn the_largest_of_5_1() {
    let mut rows = zero_parameters();
    rows.parameters[0][0] = 1_000;
    rows.stock = (0..32)
        .map(|id| [id, 1, 10_000, 10_000_000, 1_000])
        .collect();
    rows.conversion = (0..32)
        .map(|id| {
            [
                id, 1_000_000, 10_000, 0, 0, 0, 0, 1_000, 0, 0, 0, 0, 0, 0, 0,
            ]
        })
        .collect();
    // 32 times 10^11 of K, as much as is cleared.
    rows.harvest = (0..32).map(|id| [id, 10_000_000, 10_000, 0, 0]).collect();
    let up = figures_of(&rows);
    assert_eq!((up.e, up.l), (3_200_000_000_000_000, 320_000_000_000_000));
    assert_eq!((up.k, up.m), (3_200_000_000_000, 0));
    assert_eq!((up.o, up.p), (0, 320_000_000_000_000_000));
    assert_eq!(up.q, 1_173_333_333_333);
    rows.stock.clear();
    rows.conversion.clear();
    rows.harvest = (0..32)
        .map(|id| [id, 10_000_000, 10_000, 10_000_000, 10_000_000])
        .collect();
    let down = figures_of(&rows);
    assert_eq!((down.k, down.m), (3_840_000_000_000, 384_000_000_000_000));
    assert_eq!(
        (down.p, down.q),
        (-384_000_000_000_000_000, -1_408_000_000_000)
    );
}

#[test]
fn h_fractions() {
    let with = |decay| {
        let mut rows = worked_day();
        for (at, value) in [(4, 500), (7, 300), (13, decay)] {
            rows.conversion[0][at] = value;
        }
        text_of(&rows.to_bytes())
    };
    assert!(with(200).starts_with("E 340000000\n"));
    assert_eq!(with(201), "refused 7 0\n");
}

/// (i) as the request on thinner grass leaves it: both pass with zero.
#[test]
fn i_after_and_before() {
    let with = |year: [u32; 2], ten_years: [u32; 2]| {
        let mut rows = worked_day();
        rows.conversion[0][2..4].copy_from_slice(&year);
        rows.conversion[0][11..13].copy_from_slice(&ten_years);
        let s = figures_of(&rows);
        ([s.onsite, s.offsite, s.decay, s.l.into()], s.thinner)
    };
    let (same, more) = ([100, 100], [100, 101]);
    assert_eq!(with(same, same), ([0; 4], 0));
    assert_eq!(with(more, same), ([0; 4], 1));
    assert_eq!(with(same, more), ([0; 4], 1));
    assert_eq!(with(more, more), ([0; 4], 2));
    assert_eq!(with([49, 100], same), ([0; 4], 1));
}

#[test]
fn rooms_are_filled_exactly() {
    let bytes = worked_day().to_bytes();
    let due = WORKED_TEXT.as_bytes();
    for room in 0..due.len() + 20 {
        let mut lent = vec![b'#'; room];
        let length = lines(&bytes, &mut lent);
        let fits = room >= due.len();
        assert_eq!(length, if fits { due.len() } else { 0 });
        assert_eq!(&lent[..length], &due[..length]);
        assert!(lent[length..].iter().all(|&byte| byte == b'#'));
    }
}

/// Rounding checked as the request says it: no other whole number is nearer,
/// and at a half it is even.
#[test]
fn rounded_is_nearest() {
    let good = |above: i128, below: i128, rounded: i128| {
        let twice_off = 2 * (rounded * below - above).abs();
        twice_off < below || (twice_off == below && rounded % 2 == 0)
    };
    let mut rng = Rng::new(62);
    let mut halves = 0;
    for _ in 0..20_000 {
        let bytes = case(&mut rng).bytes;
        let s = sheets(&bytes).expect("made good");
        let mut blocks = bytes.chunks(512);
        let block = blocks.find(|block| block[0] == 4).expect("parameters");
        let ratio = |at: usize| i128::from(u16::from_le_bytes([block[8 + at], block[9 + at]]));
        let c = s.onsite as i128;
        let all = (s.r() + s.decay) as i128;
        let tera = 1_000_000_000_000;
        for (above, below, rounded) in [
            (11 * i128::from(s.p), 3_000_000, i128::from(s.q)),
            (11 * all, 3_000_000_000, s.co2.into()),
            (4 * c * ratio(6), 3 * tera, s.ch4.into()),
            (7 * c * ratio(8), 3 * tera, s.co.into()),
            (11 * c * ratio(10) * ratio(12), 7_000 * tera, s.n2o.into()),
            (23 * c * ratio(10) * ratio(14), 7_000 * tera, s.nox.into()),
            (11 * i128::from(s.uptake), 30_000, s.uptake_co2.into()),
        ] {
            assert!(good(above, below, rounded), "{above} / {below}: {rounded}");
            halves += u32::from(2 * above.rem_euclid(below) == below);
        }
    }
    assert!(halves > 2_000, "{halves}");
}

/// 50 bytes for each line are always enough.
#[test]
fn long_texts_have_room() {
    let mut rng = Rng::new(63);
    let longest = (0..2_000).map(|_| text_of(&case(&mut rng).bytes).len());
    let longest = longest.max();
    assert!(
        longest.is_some_and(|length| (400..=LINES_ROOM).contains(&length)),
        "{longest:?}"
    );
}

/// The worked day's text is as long as `plain.c` writes.
#[test]
fn the_worked_day_is_544_bytes() {
    assert_eq!(WORKED_TEXT.len(), 544);
}

/// "Editions 1 and 2 that use it are read, worked out and written as ever, with the same
/// figures [..], and the answer says how many such rows there were" (02, §12): the trees
/// change no figure but their number, and neither does the edition.
#[test]
fn scattered_trees_are_counted() {
    let mut rows = worked_day();
    rows.stock = vec![
        [1, 0, 680, 1000, 500],
        [2, 0, 20, 30, 40],
        [3, 0, 0, 0, 0],
        [4, 0, 10_000, 10_000_000, 1_000],
    ];
    let land = figures_of(&rows);
    assert_eq!(land.scattered, 0);
    for edition in [1, 2] {
        rows.edition = edition;
        for codes in 0..16 {
            let trees = |at: usize| u32::from(codes >> at & 1 == 1);
            (0..4).for_each(|at| rows.stock[at][1] = trees(at));
            let scattered = (0..4).map(|at| u64::from(trees(at))).sum();
            assert_eq!(figures_of(&rows), Worksheets { scattered, ..land });
        }
    }
    let text = text_of(&rows.to_bytes());
    assert!(
        text.contains("soil_change 0\nscattered 4\noxidised_onsite "),
        "{text}"
    );
    rows.edition = 3;
    assert_eq!(text_of(&rows.to_bytes()), "refused 14 12\n");
    let third = figures_of(&rows.moved_to(3));
    assert_eq!(third, land);
}
