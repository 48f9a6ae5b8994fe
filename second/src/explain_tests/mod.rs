//! Each text to the letter, on returns made by hand.

mod faults;
mod longest;
mod records;

use super::*;
use crate::inputs;
use crate::judge::tests::Hand;
use crate::kinds::RETURN_ROOM;
use crate::make::{worked_day, Rows};
use crate::rng::Rng;

fn text_of(bytes: &[u8]) -> String {
    String::from_utf8(text(bytes).as_bytes().to_vec()).expect("the text is ASCII")
}

/// Of a return without conversion rows.
const NONE: &str = "heaviest_onsite none\nheaviest_offsite none\nheaviest_decay none\n\
    oxidised_onsite 0\ncharcoal_onsite 0\noxidised_offsite 0\ncharcoal_offsite 0\nunburned 0\n";

fn explained(hand: Hand) -> String {
    text_of(&hand.checked())
}

#[test]
fn the_worked_day() {
    let due = "heaviest_onsite 7\nheaviest_onsite_part 32400000000000\n\
        heaviest_offsite 7\nheaviest_offsite_part 16200000000000\n\
        heaviest_decay 7\nheaviest_decay_part 40500000000000\n\
        oxidised_onsite 64800000000\ncharcoal_onsite 7200000000\n\
        oxidised_offsite 32400000000\ncharcoal_offsite 3600000000\nunburned 72000000000\n";
    assert_eq!(text_of(&worked_day().to_bytes()), due);
}

/// Case (b) has no conversion row, (g) and (j) are refused.
#[test]
fn the_papers_cases() {
    let mut bytes = Hand::new(&[(4, 1)]).checked();
    assert_eq!(text_of(&bytes), NONE);
    assert_eq!(text_of(&bytes[..511]), "refused 1 0\nlength 511\n");
    bytes[508] = 17;
    assert_eq!(text_of(&bytes), "refused 2 0\nstored 17\ncomputed 18\n");
    let mut day = worked_day();
    day.conversion[0][4] = 501;
    let due = "refused 7 0\nblock 0\nrow 0\nkind_name conversion\nid 7\n\
        onsite 501\noffsite 200\ndecay 300\nsum 1001\n";
    assert_eq!(text_of(&day.to_bytes()), due);
}

#[test]
fn lengths() {
    let most = RETURN_ROOM;
    for length in [0, 1, 511, 513, most - 1, most + 1, most + 512, 100_000] {
        let due = format!("refused 1 0\nlength {length}\n");
        assert_eq!(text_of(&vec![0; length]), due);
    }
}

/// All four bytes of the stored check, and the largest that is computed.
#[test]
fn checks() {
    let mut bytes = Hand::new(&[(1, 1), (4, 1)]).checked();
    bytes[1020..].copy_from_slice(&[1, 2, 3, 4]);
    // Kind 4, count 1 (2), block number 1 (3), two blocks (10), edition 1 (7).
    let due = "refused 2 1\nstored 67305985\ncomputed 26\n";
    assert_eq!(text_of(&bytes), due);
    let due = "refused 2 0\nstored 4294967295\ncomputed 32967930\n";
    assert_eq!(text_of(&[255; 512]), due);
    // The first block, though the second is wrong too.
    bytes[0] = 2;
    let due = "refused 2 0\nstored 20\ncomputed 21\n";
    assert_eq!(text_of(&bytes), due);
}

#[test]
fn headers() {
    let header = |hand: Hand| explained(hand);
    let due = "refused 3 0\nkind 9\ncount 1\nnumber 0\nblocks 1\nedition 1\n\
        number_due 0\nblocks_due 1\nedition_first 1\n";
    assert_eq!(header(Hand::new(&[(9, 1)])), due);
    // Two bytes each, the lower first.
    let wrong = Hand::new(&[(1, 1), (2, 1), (4, 1)])
        .byte(1024, 250)
        .byte(1025, 200)
        .byte(1026, 1)
        .byte(1027, 2)
        .byte(1028, 3)
        .byte(1029, 4)
        .byte(1030, 5)
        .byte(1031, 6);
    let due = "refused 3 2\nkind 250\ncount 200\nnumber 513\nblocks 1027\nedition 1541\n\
        number_due 2\nblocks_due 3\nedition_first 1\n";
    assert_eq!(header(wrong), due);
    let unlike = Hand::second(&[(1, 1), (4, 1)]).edition(1, 1);
    let due = "refused 3 1\nkind 4\ncount 1\nnumber 1\nblocks 2\nedition 1\n\
        number_due 1\nblocks_due 2\nedition_first 2\n";
    assert_eq!(header(unlike), due);
}

#[test]
fn rooms() {
    let bytes = Hand::new(&[(4, 1)]).checked();
    let due = NONE.as_bytes();
    for lent in [0, 1, due.len() - 1, due.len(), due.len() + 1, EXPLAIN_ROOM] {
        let mut room = vec![0xAA; lent];
        let fits = lent >= due.len();
        let length = explain(&bytes, &mut room);
        assert_eq!(length, if fits { due.len() } else { 0 });
        assert_eq!(room[..length], due[..length]);
        assert!(room[length..].iter().all(|&byte| byte == 0xAA));
    }
}

/// The number and the place are those that `sheets` prints.
#[test]
fn the_first_line_is_that_of_sheets() {
    for index in 0..20_000 {
        let case = inputs::explained(index, &mut Rng::for_input(154, index as u64));
        let (sheets, explained) = (crate::sheets::text(&case.bytes), text(&case.bytes));
        let [sheets, explained] = [&sheets, &explained].map(Text::as_bytes);
        if sheets.starts_with(b"refused") {
            assert!(explained.starts_with(sheets), "{}", case.how);
        } else {
            assert!(explained.starts_with(b"heaviest_onsite "), "{}", case.how);
        }
    }
}
