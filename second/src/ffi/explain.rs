#![allow(unsafe_code)]
use crate::lent::Lent;

extern "C" {
    fn niloferq_explain(
        bytes: *const u8,
        bytes_len: usize,
        room: *mut u8,
        room_len: usize,
    ) -> usize;
    fn niloferq_heaviest(
        bytes: *const u8,
        bytes_len: usize,
        code: u32,
        room: *mut u64,
        room_len: usize,
    ) -> u32;
}

/// The first program's text of `explain` at the front of `room`. It gives the
/// text's length, or 0 when the room is too short.
#[inline]
pub fn first_explain(bytes: &[u8], room: Lent<u8>) -> usize {
    let (room, room_len) = room.parts();
    // Both pointers are good for the lengths handed over with them, and `room`
    // is lent to nobody else during the call.
    unsafe { niloferq_explain(bytes.as_ptr(), bytes.len(), room, room_len) }
}

/// The first program's heaviest row of a subtotal at the front of `room`.
#[inline]
pub fn first_heaviest(bytes: &[u8], code: u32, room: Lent<u64>) -> u32 {
    let (room, room_len) = room.parts();
    // As above.
    unsafe { niloferq_heaviest(bytes.as_ptr(), bytes.len(), code, room, room_len) }
}
