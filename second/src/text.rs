//! The lines of `sheets` and of `explain` in a room of their own: "name, one
//! space, value in decimal, with `-` only below zero", each ended by a line feed.

use crate::judge::Refusal;

/// The figures of `sheets`, a line each.
pub const FIGURES: usize = 38;
/// What is always enough for C: 50 bytes for each line.
pub const LINES_ROOM: usize = 50 * FIGURES;
/// A line has at most 15 + 24 + 1 bytes, that of the carbon of savannas.
const MOST: usize = 40 * FIGURES;

pub struct Text {
    bytes: [u8; MOST],
    length: usize,
}

/// "00" to "99", so that two digits are made by one division.
const PAIRS: [[u8; 2]; 100] = {
    let mut pairs = [[b'0'; 2]; 100];
    let mut i = 0;
    while i < 100 {
        pairs[i] = [b'0' + (i / 10) as u8, b'0' + (i % 10) as u8];
        i += 1;
    }
    pairs
};

/// The largest power of ten in 64 bits: no figure needs two of them.
const TEN_TO_19: u64 = 10_000_000_000_000_000_000;

impl Text {
    pub fn new() -> Self {
        Text {
            bytes: [0; MOST],
            length: 0,
        }
    }

    pub fn as_bytes(&self) -> &[u8] {
        &self.bytes[..self.length]
    }

    /// Puts the text at the front of `room` and gives its length, or gives 0 and
    /// leaves `room` alone when it is too short.
    pub fn put_into(&self, room: &mut [u8]) -> usize {
        match room.get_mut(..self.length) {
            Some(front) => {
                front.copy_from_slice(self.as_bytes());
                self.length
            }
            None => 0,
        }
    }

    /// The name comes with its space. Inlined, its length is known.
    #[inline]
    pub fn line(&mut self, name: &str, value: u64) {
        self.put(name.as_bytes());
        self.put_number(value);
        self.put(b"\n");
    }

    #[inline]
    pub fn signed_line(&mut self, name: &str, value: i64) {
        self.put(name.as_bytes());
        if value < 0 {
            self.put(b"-");
        }
        self.put_number(value.unsigned_abs());
        self.put(b"\n");
    }

    /// For values below 10^38.
    pub fn wide_line(&mut self, name: &str, value: u128) {
        if let Ok(value) = u64::try_from(value) {
            return self.line(name, value);
        }
        // One wide division; what is left fits 64 bits again.
        let high = value / u128::from(TEN_TO_19);
        let low = value - high * u128::from(TEN_TO_19);
        self.put(name.as_bytes());
        self.put_number(high as u64);
        put_digits(self.next(19), low as u64);
        self.put(b"\n");
    }

    /// A word in the place of a number.
    #[inline]
    pub fn word_line(&mut self, name: &str, word: &str) {
        self.put(name.as_bytes());
        self.put(word.as_bytes());
        self.put(b"\n");
    }

    /// "`refused`, number, place, with single spaces."
    pub fn refused(&mut self, refusal: Refusal) {
        self.put(b"refused ");
        self.put_number(u64::from(refusal.number));
        self.line(" ", u64::from(refusal.place));
    }

    /// The next bytes to be filled.
    fn next(&mut self, length: usize) -> &mut [u8] {
        let from = self.length;
        self.length += length;
        &mut self.bytes[from..self.length]
    }

    #[inline]
    fn put(&mut self, bytes: &[u8]) {
        self.next(bytes.len()).copy_from_slice(bytes);
    }

    fn put_number(&mut self, value: u64) {
        let length = value.checked_ilog10().unwrap_or(0) as usize + 1;
        put_digits(self.next(length), value);
    }
}

impl Default for Text {
    fn default() -> Self {
        Self::new()
    }
}

/// Fills all of `digits` from the back, with zeros in front if any are left.
fn put_digits(digits: &mut [u8], mut value: u64) {
    let mut pairs = digits.rchunks_exact_mut(2);
    for pair in &mut pairs {
        pair.copy_from_slice(&PAIRS[(value % 100) as usize]);
        value /= 100;
    }
    if let [first] = pairs.into_remainder() {
        *first = b'0' + value as u8;
    }
}

#[cfg(test)]
mod tests {
    use super::*;
    use crate::rng::Rng;

    /// Against the standard library's own decimal numbers.
    #[test]
    fn numbers_are_decimal() {
        let mut rng = Rng::new(61);
        let mut values: Vec<u128> = vec![0, 1, 9, 10, 99, 100, 101, 999, 1_000];
        values.extend((0..38).flat_map(|power| {
            let ten = 10u128.pow(power);
            [ten - 1, ten, ten + 1]
        }));
        values.extend((0..500).map(|_| u128::from(rng.draw()) * u128::from(rng.word())));
        values.retain(|&value| value < 10u128.pow(38));
        for value in values {
            let mut text = Text::new();
            text.wide_line("x ", value);
            assert_eq!(text.as_bytes(), format!("x {value}\n").as_bytes());
            let short = value as i64;
            for value in [short, -short.saturating_abs(), i64::MIN, i64::MAX] {
                let mut text = Text::new();
                text.signed_line("y ", value);
                assert_eq!(text.as_bytes(), format!("y {value}\n").as_bytes());
            }
        }
    }
}
