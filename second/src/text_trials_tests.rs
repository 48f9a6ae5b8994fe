//! The trials find nothing in the second program itself, and what is planted in others.

use super::*;
use crate::kinds::{Kind, KINDS};

/// The first of so many texts at which something differs.
fn first_difference(door: Door, texts: usize) -> Option<usize> {
    let mut tally = Tally::new();
    (0..texts).find(|&index| try_nth(door, (350, index), &mut tally).is_some())
}

#[test]
fn nothing_differs_from_itself() {
    assert_eq!(first_difference(Door::stand_in(), 8_000), None);
}

/// A packer that sees another text.
fn packs(text: &[u8], room: Lent<u8>, size: Lent<u32>, other: fn(&[u8]) -> Vec<u8>) -> u32 {
    pack(&other(text), room.room(), size.room())
}

/// The text without what stands behind its last LF.
fn last_line_lost(text: &[u8]) -> Vec<u8> {
    let end = text.iter().rposition(|&byte| byte == b'\n');
    text[..end.map_or(0, |end| end + 1)].to_vec()
}

/// A digit that is the last of its field taken away where it is a zero behind a mark and
/// three others.
fn decimal_cut_off(text: &[u8]) -> Vec<u8> {
    let mut cut = Vec::new();
    let mut behind = None;
    for &byte in text {
        behind = match (byte, behind) {
            (b'.', _) => Some(0),
            (b'0'..=b'9', Some(digits)) => Some(digits + 1),
            _ => None,
        };
        if behind.is_none_or(|digits| digits < 4) {
            cut.push(byte);
        }
    }
    cut
}

/// Lines of a kind behind its 32nd left out.
fn row_33_dropped(text: &[u8]) -> Vec<u8> {
    let mut counts = [0; 8];
    let mut kept = Vec::new();
    for line in text.split_inclusive(|&byte| byte == b'\n') {
        let small = line.to_ascii_lowercase();
        let word = |kind: &Kind| {
            small
                .windows(4)
                .any(|word| word == &kind.name.as_bytes()[..4])
        };
        let is_note = line.contains(&b'#');
        if let Some(nth) = KINDS.iter().position(word).filter(|_| !is_note) {
            counts[nth] += 1;
            if counts[nth] > 32 {
                continue;
            }
        }
        kept.extend(line);
    }
    kept
}

fn replaced(text: &[u8], from: &[u8], to: &[u8]) -> Vec<u8> {
    let mut new = Vec::new();
    let mut rest = text;
    while let Some((&byte, later)) = rest.split_first() {
        if let Some(behind) = rest.strip_prefix(from) {
            new.extend(to);
            rest = behind;
        } else {
            new.push(byte);
            rest = later;
        }
    }
    new
}

/// Wrong stand-ins, each with one mistake.
#[test]
fn planted_differences_are_found() {
    let own = Door::stand_in();
    let wrong: [(&str, Door); 22] = [
        (
            "the 33rd row dropped",
            Door {
                pack: |text, room, size| packs(text, room, size, row_33_dropped),
                ..own
            },
        ),
        (
            "a comma is a mark between commas",
            Door {
                pack: |text, room, size| {
                    packs(text, room, size, |text| replaced(text, b"\"2,5\"", b"2.5"))
                },
                ..own
            },
        ),
        (
            "a row dropped at a CRLF",
            Door {
                pack: |text, room, size| {
                    packs(text, room, size, |text| {
                        let lines = text.split_inclusive(|&byte| byte == b'\n');
                        let kept = lines
                            .enumerate()
                            .filter(|(nth, line)| *nth != 2 || !line.ends_with(b"\r\n"));
                        kept.flat_map(|(_, line)| line.to_vec()).collect()
                    })
                },
                ..own
            },
        ),
        (
            "the last line lost",
            Door {
                pack: |text, room, size| packs(text, room, size, last_line_lost),
                ..own
            },
        ),
        (
            "a decimal too many cut off",
            Door {
                pack: |text, room, size| packs(text, room, size, decimal_cut_off),
                ..own
            },
        ),
        (
            "an empty field as 0",
            Door {
                pack: |text, room, size| {
                    packs(text, room, size, |text| replaced(text, b",,", b",0,"))
                },
                ..own
            },
        ),
        (
            "a CR is any line's end",
            Door {
                pack: |text, room, size| {
                    packs(text, room, size, |text| replaced(text, b"\r", b"\n"))
                },
                ..own
            },
        ),
        (
            "CRs taken away",
            Door {
                pack: |text, room, size| packs(text, room, size, |text| replaced(text, b"\r", b"")),
                ..own
            },
        ),
        (
            "CRLF is no end",
            Door {
                pack: |text, room, size| {
                    packs(text, room, size, |text| replaced(text, b"\r\n", b"\r"))
                },
                ..own
            },
        ),
        (
            "quotes taken away",
            Door {
                pack: |text, room, size| packs(text, room, size, |text| replaced(text, b"\"", b"")),
                ..own
            },
        ),
        (
            "tabs as spaces",
            Door {
                pack: |text, room, size| {
                    packs(text, room, size, |text| replaced(text, b"\t", b" "))
                },
                ..own
            },
        ),
        (
            "no byte order mark",
            Door {
                pack: |text, room, size| {
                    packs(text, room, size, |text| {
                        replaced(text, b"\xEF\xBB\xBF", b"x")
                    })
                },
                ..own
            },
        ),
        (
            "marks anywhere",
            Door {
                pack: |text, room, size| {
                    packs(text, room, size, |text| {
                        replaced(text, b"\xEF\xBB\xBF", b"")
                    })
                },
                ..own
            },
        ),
        (
            "signs taken away",
            Door {
                pack: |text, room, size| packs(text, room, size, |text| replaced(text, b"+", b"")),
                ..own
            },
        ),
        (
            "one byte longer is good",
            Door {
                pack: |text, room, size| {
                    packs(text, room, size, |text| {
                        let mut text = text.to_vec();
                        text.truncate(131_072.max(text.len().saturating_sub(1)));
                        text
                    })
                },
                ..own
            },
        ),
        (
            "a byte written behind the return",
            Door {
                pack: |text, room, size| {
                    let (room, size) = (room.room(), size.room());
                    let answer = pack(text, room, size);
                    if answer == 0 && room.len() > size[0] as usize {
                        room[size[0] as usize] ^= 1;
                    }
                    answer
                },
                ..own
            },
        ),
        (
            "the size written on a refusal",
            Door {
                pack: |text, room, size| {
                    let (room, size) = (room.room(), size.room());
                    let answer = pack(text, room, size);
                    if answer > 0 && !size.is_empty() {
                        size[0] = 0;
                    }
                    answer
                },
                ..own
            },
        ),
        (
            "a short room is tried first",
            Door {
                pack: |text, room, size| {
                    let (room, size) = (room.room(), size.room());
                    match size.is_empty() {
                        true => 9000,
                        false => pack(text, room, size),
                    }
                },
                ..own
            },
        ),
        (
            "the line before is told",
            Door {
                why: |text, room| {
                    let why = pack::why(text);
                    let why = replaced(why.as_bytes(), b"line 3\n", b"line 2\n");
                    let why = replaced(&why, b"line 3 ", b"line 2 ");
                    let room = room.room();
                    match room.get_mut(..why.len()) {
                        Some(front) => {
                            front.copy_from_slice(&why);
                            why.len()
                        }
                        None => 0,
                    }
                },
                ..own
            },
        ),
        (
            "a reason in a room that is short by one",
            Door {
                why: |text, room| {
                    let why = pack::why(text);
                    let (why, room) = (why.as_bytes(), room.room());
                    let fits = room.len() + 1 >= why.len();
                    let length = why.len().min(room.len());
                    if fits {
                        room[..length].copy_from_slice(&why[..length]);
                    }
                    if fits {
                        why.len()
                    } else {
                        0
                    }
                },
                ..own
            },
        ),
        (
            "land where trees are",
            Door {
                unpack: |bytes, room, size| {
                    let (room, size) = (room.room(), size.room());
                    let answer = unpack(bytes, room, size);
                    if answer == 0 {
                        let text = replaced(&room[..size[0] as usize], b",trees,", b",landd,");
                        room[..text.len()].copy_from_slice(&text);
                    }
                    answer
                },
                ..own
            },
        ),
        (
            "a refused return unpacked as none",
            Door {
                unpack: |bytes, room, size| {
                    let answer = unpack(bytes, room.room(), size.room());
                    if answer / 1000 == 13 {
                        12_000
                    } else {
                        answer
                    }
                },
                ..own
            },
        ),
    ];
    for (name, door) in wrong {
        assert!(first_difference(door, 12_000).is_some(), "{name}");
    }
}
