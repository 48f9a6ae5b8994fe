//! A text cut into lines, and a line into cells (rows as text, rules 2, 3, 4 and 6).

/// "EF BB BF at the very start is passed over."
const MARK: [u8; 3] = [0xEF, 0xBB, 0xBF];

/// The separators that a file may have.
pub const SEPARATORS: [u8; 3] = [b',', b';', b'\t'];

/// "what stands before each LF, and what stands behind the last LF if it is not empty", each
/// with its number, from 1 on. "A CR directly before an LF is no part of the line."
pub fn lines(text: &[u8]) -> impl Iterator<Item = (u32, &[u8])> {
    let text = text.strip_prefix(&MARK).unwrap_or(text);
    let lines = text.split_inclusive(|&byte| byte == b'\n');
    (1..).zip(lines.map(|line| match line.strip_suffix(b"\n") {
        Some(line) => line.strip_suffix(b"\r").unwrap_or(line),
        None => line,
    }))
}

/// "spaces, and tabs where the separator is no tab; before the separator is known a tab is a
/// blank"
fn is_blank(byte: u8, separator: Option<u8>) -> bool {
    byte == b' ' || (byte == b'\t' && separator != Some(b'\t'))
}

/// A line without the blanks that it begins with.
pub fn behind_blanks(line: &[u8], separator: Option<u8>) -> &[u8] {
    let first = line.iter().position(|&byte| !is_blank(byte, separator));
    &line[first.unwrap_or(line.len())..]
}

/// Whether a line is passed over: it has "nothing but commas, semicolons, tabs and spaces",
/// or "behind its leading blanks begins with `#` or with `"#`".
pub fn is_passed_over(line: &[u8], separator: Option<u8>) -> bool {
    let rest = behind_blanks(line, separator);
    let is_note = rest.starts_with(b"#") || rest.starts_with(b"\"#");
    is_note || line.iter().all(|byte| b",;\t ".contains(byte))
}

/// What stands between separators, each cleaned.
pub fn cells(line: &[u8], separator: u8) -> impl Iterator<Item = &[u8]> {
    let pieces = line.split(move |&byte| byte == separator);
    pieces.map(move |piece| clean(piece, separator))
}

/// "blanks off both ends, then, if it has at least two characters and begins and ends with
/// `"`, these two off"
fn clean(piece: &[u8], separator: u8) -> &[u8] {
    let piece = behind_blanks(piece, Some(separator));
    let last = piece
        .iter()
        .rposition(|&byte| !is_blank(byte, Some(separator)));
    let piece = &piece[..last.map_or(0, |last| last + 1)];
    match piece {
        [b'"', inside @ .., b'"'] => inside,
        _ => piece,
    }
}

/// How many cells there are "up to the last one that is not empty".
pub fn used(cells: &[&[u8]]) -> usize {
    let last = cells.iter().rposition(|cell| !cell.is_empty());
    last.map_or(0, |last| last + 1)
}

#[cfg(test)]
mod tests {
    use super::*;

    fn cut(text: &[u8]) -> Vec<(u32, &[u8])> {
        lines(text).collect()
    }

    /// Rules 2 and 3.
    #[test]
    fn lines_by_hand() {
        assert_eq!(cut(b""), []);
        assert_eq!(cut(b"\xEF\xBB\xBF"), []);
        assert_eq!(cut(b"\n"), [(1, &b""[..])]);
        assert_eq!(cut(b"a\nb"), [(1, &b"a"[..]), (2, b"b")]);
        assert_eq!(cut(b"a\r\nb\r\n"), [(1, &b"a"[..]), (2, b"b")]);
        // Any other CR is a character like any other.
        assert_eq!(cut(b"a\rb\r\r\nc\r"), [(1, &b"a\rb\r"[..]), (2, b"c\r")]);
        assert_eq!(cut(b"\r\n\n\r"), [(1, &b""[..]), (2, b""), (3, b"\r")]);
        assert_eq!(cut(b"\xEF\xBB\xBFa\n"), [(1, &b"a"[..])]);
        // Only one mark, only whole and only at the very start.
        let twice = b"\xEF\xBB\xBF\xEF\xBB\xBF";
        assert_eq!(cut(twice), [(1, &b"\xEF\xBB\xBF"[..])]);
        assert_eq!(cut(b"\xEF\xBB"), [(1, &b"\xEF\xBB"[..])]);
        assert_eq!(
            cut(b"\n\xEF\xBB\xBF"),
            [(1, &b""[..]), (2, b"\xEF\xBB\xBF")]
        );
    }

    /// Rule 4.
    #[test]
    fn passed_over_by_hand() {
        let [none, comma, tab] = [None, Some(b','), Some(b'\t')];
        for line in [
            "",
            " ",
            ",,,",
            " ;\t, ",
            "#",
            "# a",
            "\"# a, b\"",
            "  #",
            "\"#",
        ] {
            for separator in [none, comma, tab, Some(b';')] {
                assert!(is_passed_over(line.as_bytes(), separator), "{line:?}");
            }
        }
        for line in ["\r", "x", "\"\"", "\"", " \" #", "\"\"#", "\u{a0}", ",#"] {
            for separator in [none, comma, tab] {
                assert!(!is_passed_over(line.as_bytes(), separator), "{line:?}");
            }
        }
        // A tab is a blank where it is no separator.
        for line in ["\t#", " \t \"#"] {
            assert!(is_passed_over(line.as_bytes(), none));
            assert!(is_passed_over(line.as_bytes(), comma));
            assert!(!is_passed_over(line.as_bytes(), tab));
        }
    }

    fn cleaned(line: &str, separator: u8) -> Vec<&str> {
        let cells = cells(line.as_bytes(), separator);
        cells
            .map(|cell| std::str::from_utf8(cell).expect("text"))
            .collect()
    }

    /// Rule 6.
    #[test]
    fn cells_by_hand() {
        assert_eq!(cleaned("", b','), [""]);
        assert_eq!(cleaned("a, b\t,\t c d ", b','), ["a", "b", "c d"]);
        assert_eq!(cleaned("a; b\t;,", b';'), ["a", "b", ","]);
        assert_eq!(cleaned("a\t b ", b'\t'), ["a", "b"]);
        assert_eq!(cleaned("\"a\", \"b\" ,\"\"", b','), ["a", "b", ""]);
        // No blanks inside the quotes, no doubled quotes, one alone stays.
        assert_eq!(cleaned("\" a \",\"\"\"a\"\"\"", b','), [" a ", "\"\"a\"\""]);
        assert_eq!(
            cleaned("\",a\",a\",\"a\"b", b','),
            ["\"", "a\"", "a\"", "\"a\"b"]
        );
        // "A separator inside quotes separates all the same."
        assert_eq!(cleaned("\"1,5\"", b','), ["\"1", "5\""]);
        assert_eq!(cleaned("\"1,5\"", b';'), ["1,5"]);
        assert_eq!(cleaned("\r", b','), ["\r"]);
    }

    #[test]
    fn empty_cells_behind_the_last_are_not_used() {
        for (line, due) in [
            ("", 0),
            (",,", 0),
            ("a", 1),
            ("a,, ,\t", 1),
            (",a", 2),
            ("a,,b,\"\", \"\" ,", 3),
            ("\" \",", 1),
        ] {
            let cells: Vec<&[u8]> = cells(line.as_bytes(), b',').collect();
            assert_eq!(used(&cells), due, "{line:?}");
        }
    }
}
