//! "More fuelwood cleared than used" (02, §8) in every function, and what it leaves.

use super::*;
use crate::doubles::subtotal;
use crate::heaviest::heaviest;
use crate::inputs;
use crate::judge::{check, judge};
use crate::kinds::{COUNTS_ROOM, RETURN_ROOM, ROWS_ROOM};
use crate::lists::RowLists;
use crate::make::{worked_day, Rows};
use crate::reader::{count, read};
use crate::rng::Rng;
use crate::sheets::{figures, lines, sheets, text, Worksheets, NUMBERS};

/// The worked day clears 36,000,000 and uses 77,500,000.
fn day(f: u32, off_site: u32) -> Rows {
    let mut rows = worked_day();
    rows.harvest[0][1] = f;
    rows.conversion[0][7] = off_site;
    rows
}

#[test]
fn sums_by_hand() {
    let mut wood = Wood::default();
    assert!(wood.holds());
    wood.use_up([500, 950, 300, 0]);
    wood.use_up([0, 9, 0, 2]);
    assert_eq!((wood.k, wood.used()), (777_000, 77_700_000));
    wood.clear([200, 1_000, 100, 200]);
    wood.clear([200, 100, 1_000, 200]);
    assert_eq!(wood.l, 36_000_000);
    wood.clear([41_700_000, 1, 0, 1]);
    assert!(wood.holds());
    wood.clear([1, 1, 0, 1]);
    assert!(!wood.holds());
}

/// "L equal to 100 K passes with M 0": 36,000,000 is 60 x 1,000 + 300 x 1,000 of K.
#[test]
fn equality_has_m_zero() {
    let mut rows = day(60, 200);
    rows.harvest[0][2] = 1_000;
    let s = sheets(&rows.to_bytes()).expect("as much cleared as used");
    assert_eq!((s.k, s.l, s.m, s.o), (360_000, 36_000_000, 0, 0));
    assert_eq!((s.p, s.q), (34_000_000_000, 124_667));
    rows.harvest[0][1] = 59;
    let text = text(&rows.to_bytes());
    assert_eq!(text.as_bytes(), b"refused 12 0\n");
}

/// (d) and (h) keep their answers "with rows whose harvest is above their clearing
/// wood".
#[test]
fn d_and_h_beside_clearing() {
    let row = |area| [1, area, 1, 0, 500, 0, 0, 300, 0, 0, 0, 0, 0, 200, 0];
    let rows = |area: u32, f: u32| Rows {
        conversion: vec![row(area)],
        harvest: vec![[1, f, 1, 0, 0]],
        parameters: vec![[1, 0, 0, 0, 0, 0]],
        ..Rows::default()
    };
    // L = 300 x 2 and 100 K = 1,500,600: P = -1,500,000.
    let d = sheets(&rows(2, 15_006).to_bytes()).expect("good rows");
    assert_eq!((d.m, d.p, d.q, d.report()), (1_500_000, -1_500_000, -6, 6));
    let mut h = rows(2, 15_006);
    h.conversion[0][13] = 201;
    assert_eq!(judge(&h.to_bytes()).answer(), 7000);
    // 7 comes first where more is cleared than used, too.
    h.harvest[0][1] = 0;
    assert_eq!(judge(&h.to_bytes()).answer(), 7000);
    h.conversion[0][13] = 200;
    assert_eq!(judge(&h.to_bytes()).answer(), 12_000);
}

/// "code 11 and then 9 come after it", in each function that has them.
#[test]
fn later_numbers_come_after() {
    let bad = day(0, 300).to_bytes();
    let [mut counts, mut rows] = [[7; COUNTS_ROOM].to_vec(), [7; ROWS_ROOM].to_vec()];
    for room in [0, COUNTS_ROOM] {
        assert_eq!(count(&bad, &mut counts[..room]), 12_000);
        assert_eq!(read(&bad, &mut rows[..room], &mut counts[..room]), 12_000);
    }
    assert_eq!(read(&bad, &mut rows, &mut counts), 12_000);
    let (mut numbers, mut bytes) = (vec![7; NUMBERS], Vec::new());
    for room in [0, NUMBERS - 1, NUMBERS] {
        assert_eq!(figures(&bad, &mut numbers[..room]), 12_000);
        for code in [0, 1, 2, 3, u32::MAX] {
            bytes.resize(room, 7);
            assert_eq!(subtotal(&bad, code, &mut bytes), 12_000);
            assert_eq!(heaviest(&bad, code, &mut numbers[..room]), 12_000);
        }
    }
    let kept = counts.iter().chain(&rows).all(|&number| number == 7);
    assert!(kept && numbers.iter().all(|&n| n == 7) && bytes.iter().all(|&b| b == 7));
    let mut room = [b'#'; 20];
    assert_eq!(lines(&bad, &mut room[..12]), 0);
    assert_eq!(room, [b'#'; 20]);
    assert_eq!(lines(&bad, &mut room), 13);
    assert_eq!(&room, b"refused 12 0\n#######");
}

/// "Writing: 10, then 5 to 7", 12, and last 9.
#[test]
fn writing_tries_it_after_7() {
    let rows = day(0, 300);
    let mut made = RowLists::of(String::new(), &rows);
    let written = |made: &RowLists, room: usize, sizes: usize| {
        let (mut room, mut size) = (vec![7; room], vec![7; sizes]);
        let answer = made.write(&mut room, &mut size);
        assert!(answer == 0 || room.iter().all(|&byte| byte == 7));
        assert!(answer == 0 || size.iter().all(|&size| size == 7));
        answer
    };
    for (room, sizes) in [(0, 0), (2_047, 1), (2_048, 0), (2_048, 1), (RETURN_ROOM, 3)] {
        assert_eq!(written(&made, room, sizes), 12_000);
    }
    made.rows[4] = 600;
    assert_eq!(written(&made, 0, 0), 7000);
    made.rows[2] = u32::MAX;
    assert_eq!(written(&made, 0, 0), 6000);
    made.edition = 4;
    assert_eq!(written(&made, 0, 0), 10_000);
    // 300 thousandths are 54,000,000, and 950 F + 300,000 of K a hundredth of that.
    let one_less = RowLists::of(String::new(), &day(252, 300));
    assert_eq!(written(&one_less, 2_048, 1), 12_000);
    let good = RowLists::of(String::new(), &day(253, 300));
    assert_eq!([0, 2_047].map(|room| written(&good, room, 1)), [9000; 2]);
    assert_eq!(written(&good, 2_048, 1), 0);
}

/// "M, O then never fall below zero; P may", on a short run of the comparison.
#[test]
fn m_and_o_are_never_below_zero() {
    let [mut accepted, mut refused, mut below, mut zero] = [0; 4];
    for index in 0..20_000 {
        let case = inputs::with_figures(index, &mut Rng::for_input(177, index as u64));
        match check(&case.bytes) {
            Ok(checked) => {
                let s = Worksheets::of(checked);
                assert!(s.m >= 0 && s.o >= 0, "{}", case.how);
                assert_eq!(s.m, checked.wood.used() as i64 - checked.wood.l as i64);
                accepted += 1;
                below += u32::from(s.p < 0);
                zero += u32::from(s.m == 0 && s.l > 0);
            }
            Err(refusal) => refused += u32::from(refusal.number == 12),
        }
    }
    assert!(
        below > 500 && zero > 200 && refused > 400,
        "{below} {zero} {refused}"
    );
    // "at least a third of accepted returns"
    assert!(3 * accepted > 20_000, "{accepted}");
}

/// The judge's sums are those that the maker has by itself.
#[test]
fn two_sums_agree() {
    for index in 0..3_000 {
        let mut rng = Rng::for_input(178, index);
        let rows = Rows::good_from(&mut rng, 0);
        let bytes = rows.to_bytes();
        let wood = check(&bytes).expect("good rows").wood;
        let [used, cleared] = rows.used_and_cleared();
        assert_eq!([wood.used(), wood.l].map(u128::from), [used, cleared]);
    }
}
