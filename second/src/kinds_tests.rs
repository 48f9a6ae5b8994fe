use super::*;

/// By hand: name, numbers, where each field ends, the first edition, and the fewest and most rows.
type ByHand = (&'static str, &'static [usize], u32, usize, usize);

/// "15, 5, 5 and 6" numbers; an abandoned row is an id and twice three fields, ages of eight bytes each; a savanna row an id and 13 fields,
/// the area of four bytes and then twelve numbers of two; a soil row an id, two numbers of two bytes, two areas and four more of two; a crop row
/// an id and 11 fields, the production of four bytes and then ten numbers of two.
#[rustfmt::skip]
const BY_HAND: [ByHand; KINDS.len()] = [
    ("conversion", &[4, 8, 10, 12, 14, 16, 18, 20, 22, 24, 28, 30, 32, 34, 36], 1, 0, 32),
    ("stock", &[4, 5, 8, 12, 14], 1, 0, 32),
    ("harvest", &[4, 8, 10, 16, 20], 1, 0, 32),
    ("parameters", &[6, 8, 10, 12, 14, 16], 1, 1, 1),
    ("abandoned", &[4, 8, 10, 12, 16, 18, 20], 2, 0, 32),
    ("savanna", &[4, 8, 10, 12, 14, 16, 18, 20, 22, 24, 26, 28, 30, 32], 2, 0, 32),
    ("soil", &[4, 6, 8, 12, 16, 18, 20, 22, 24], 2, 0, 32),
    ("crop", &[4, 8, 10, 12, 14, 16, 18, 20, 22, 24, 26, 28], 2, 0, 32),
];

/// Each field behind the one before, inside the record, and wide enough.
#[test]
fn layouts_hold() {
    for (kind, (name, ends, since, least, most)) in KINDS.iter().zip(BY_HAND) {
        assert_eq!(
            (kind.name, kind.numbers, kind.since),
            (name, ends.len(), since)
        );
        assert_eq!((kind.least_rows, kind.most_rows), (least, most), "{name}");
        let found: Vec<usize> = kind.fields.iter().map(Field::end).collect();
        assert_eq!(found, ends, "{name}");
        let mut free = 0;
        for field in kind.fields {
            assert!(field.at >= free && field.end() <= 40, "{name}");
            assert!([1, 2, 4].contains(&field.bytes), "{name}");
            assert!(u64::from(field.most) < 1 << (8 * field.bytes), "{name}");
            free = field.end();
        }
        assert_eq!(kind.has_id, name != "parameters");
    }
}

/// By hand: 806 numbers in edition 1, 32 times 7, 32 times 14, 32 times 9 and 32 times 12.
#[test]
fn rooms_are_enough() {
    assert_eq!(ROWS_ROOM, 2_150);
    assert_eq!(COUNTS_ROOM, 10);
    assert_eq!([1, 2, 3].map(full_blocks), [10, 22, 22]);
    assert_eq!(RETURN_ROOM, 11_264);
}

/// Of each kind: none, a row, the most rows, and one element or row beside them.
#[test]
fn lengths_are_whole_rows_inside_the_limits() {
    for (kind, (name, fields, since, least, most)) in KINDS.iter().zip(BY_HAND) {
        let numbers = fields.len();
        for edition in EDITIONS {
            let rows = |length: usize| kind.rows_in(edition, length as u32);
            assert_eq!(rows(0), (least == 0).then_some(0), "{name}");
            let has = |count: usize| (edition >= since).then_some(count);
            assert_eq!(rows(numbers), has(1), "{name}");
            assert_eq!(rows(numbers * most), has(most), "{name}");
            for length in [1, numbers - 1, numbers + 1, numbers * most + 1] {
                assert_eq!(rows(length), None, "{name} of {length}");
            }
            assert_eq!(rows(numbers * (most + 1)), None, "{name}");
            assert_eq!(kind.rows_in(edition, u32::MAX), None, "{name}");
        }
    }
}
