//! Damage to the bytes and the lines of a text.

use crate::rng::Rng;

/// Bytes that mean something somewhere, or look like it.
const BYTES: &[u8] =
    b"\n\r\t \"#,.;-+0123459eE%'edinstoclarpx\0\x0B\x0C\x7F\x80\xA0\xEF\xBB\xBF\xFF";

/// Changes a text in a few places, and says how.
pub fn damage(rng: &mut Rng, bytes: &mut Vec<u8>) -> String {
    let times = rng.pick(&[1, 1, 1, 2, 3, 8]);
    let mut how = format!("damaged {times} times");
    for _ in 0..times {
        how += match rng.below(4) {
            0 => by_lines(rng, bytes),
            _ => by_bytes(rng, bytes),
        };
    }
    how
}

fn by_bytes(rng: &mut Rng, bytes: &mut Vec<u8>) -> &'static str {
    if bytes.is_empty() {
        return ", empty";
    }
    let at = rng.below(bytes.len());
    let new = match rng.below(4) {
        0 => rng.byte(),
        _ => rng.pick(BYTES),
    };
    match rng.below(16) {
        0..5 => {
            bytes[at] = new;
            ", a byte changed"
        }
        5..8 => {
            bytes.remove(at);
            ", a byte dropped"
        }
        8..10 => {
            bytes.insert(at, bytes[at]);
            ", a byte doubled"
        }
        10..14 => {
            bytes.insert(at, new);
            ", a byte put in"
        }
        14 => {
            bytes.truncate(at);
            ", cut off"
        }
        _ => {
            let other = rng.below(bytes.len());
            bytes.swap(at, other);
            ", two bytes swapped"
        }
    }
}

/// Lines with their ends, as an editor would move them.
fn by_lines(rng: &mut Rng, bytes: &mut Vec<u8>) -> &'static str {
    let mut lines: Vec<Vec<u8>> = bytes
        .split_inclusive(|&byte| byte == b'\n')
        .map(<[u8]>::to_vec)
        .collect();
    if lines.is_empty() {
        return ", no line";
    }
    let [one, other] = [rng.below(lines.len()), rng.below(lines.len())];
    let how = match rng.below(3) {
        0 => {
            lines.swap(one, other);
            ", lines swapped"
        }
        1 => {
            lines.remove(one);
            ", a line dropped"
        }
        _ => {
            let line = lines[one].clone();
            lines.insert(other, line);
            ", a line doubled"
        }
    };
    *bytes = lines.concat();
    how
}
