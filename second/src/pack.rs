//! Packing: a text of rows into the blocks of a return, and why not (rows as text, rules 11
//! and 12).

use crate::judge::Refusal;
use crate::kinds::RETURN_ROOM;
use crate::text::Text;
use crate::typed::{typed, Typed};
use crate::unwritten;
use crate::writer::write;

/// More than the longest reason has, which is 149 bytes: number 6 at the off-site oxidised
/// fraction of a row whose id, value and place are as long as they can be, in a line of six
/// digits.
pub const PACK_WHY_ROOM: usize = 160;

/// Packs a text, as C sees it: 0 with the return at the front of `room` and its number of
/// bytes in `size[0]`, or the refusal with both as they were. A fault of the text is its
/// number, "1 to 10"; then comes "writing's code", and "last 9000".
pub fn pack(text: &[u8], room: &mut [u8], size: &mut [u32]) -> u32 {
    match typed(text) {
        Ok(typed) => typed.write(room, size),
        Err(fault) => fault.sort.number(),
    }
}

/// The lines of the refusal of a text, or `packed` and the bytes of its return.
pub fn why(text: &[u8]) -> Text {
    let mut why = Text::new();
    let typed = match typed(text) {
        Ok(typed) => typed,
        Err(fault) => {
            fault.print(&mut why);
            return why;
        }
    };
    let mut size = [0];
    match typed.write(&mut [0; RETURN_ROOM], &mut size) {
        0 => why.line("packed ", size[0].into()),
        answer => {
            let (number, place) = (answer / 1000, answer % 1000);
            unwritten::print(&typed, Refusal { number, place }, &mut why);
        }
    }
    why
}

/// Puts that text at the front of `room` and gives its length, or gives 0 and leaves `room`
/// alone when it is too short.
pub fn pack_why(text: &[u8], room: &mut [u8]) -> usize {
    why(text).put_into(room)
}

impl Typed {
    /// "they are written as `niloferq_write` writes them, with its own refusals"
    pub fn write(&self, room: &mut [u8], size: &mut [u32]) -> u32 {
        let lengths = self.lists.each_ref().map(|list| list.len() as u32);
        write(self.edition, &self.lists.concat(), &lengths, room, size)
    }
}

#[cfg(test)]
#[path = "pack_tests.rs"]
mod tests;
