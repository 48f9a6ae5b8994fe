#![allow(unsafe_code)]
use crate::lent::Lent;

extern "C" {
    fn niloferq_lines(bytes: *const u8, bytes_len: usize, room: *mut u8, room_len: usize) -> usize;
    fn niloferq_figures(bytes: *const u8, bytes_len: usize, room: *mut u64, room_len: usize)
        -> u32;
}

/// The first program's text of `sheets` at the front of `room`. It gives the
/// text's length, or 0 when the room is too short.
#[inline]
pub fn first_lines(bytes: &[u8], room: Lent<u8>) -> usize {
    let (room, room_len) = room.parts();
    // Both pointers are good for the lengths handed over with them, and `room`
    // is lent to nobody else during the call.
    unsafe { niloferq_lines(bytes.as_ptr(), bytes.len(), room, room_len) }
}

/// The first program's figures at the front of `room`, three numbers for each.
#[inline]
pub fn first_figures(bytes: &[u8], room: Lent<u64>) -> u32 {
    let (room, room_len) = room.parts();
    // As above.
    unsafe { niloferq_figures(bytes.as_ptr(), bytes.len(), room, room_len) }
}
