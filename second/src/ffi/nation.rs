#![allow(unsafe_code)]
use crate::lent::Lent;

extern "C" {
    fn niloferq_nation(bytes: *const u8, len: usize, room: *mut u8, room_len: usize) -> usize;
}

/// The first program's national line of a file at the front of `room`. It gives the
/// text's length, or 0 when the room is too short.
#[inline]
pub fn first_nation(file: &[u8], room: Lent<u8>) -> usize {
    let (room, room_len) = room.parts();
    // Both pointers are good for the lengths handed over with them, and `room` is lent
    // to nobody else during the call.
    unsafe { niloferq_nation(file.as_ptr(), file.len(), room, room_len) }
}
