#![allow(unsafe_code)]
use crate::lent::Lent;

extern "C" {
    fn niloferq_subtotal(
        bytes: *const u8,
        bytes_len: usize,
        code: u32,
        room: *mut u8,
        room_len: usize,
    ) -> u32;
}

/// The bits of one of the first program's doubles at the front of `room`.
#[inline]
pub fn first_subtotal(bytes: &[u8], code: u32, room: Lent<u8>) -> u32 {
    let (room, room_len) = room.parts();
    // Both pointers are good for the lengths handed over with them, and `room`
    // is lent to nobody else during the call.
    unsafe { niloferq_subtotal(bytes.as_ptr(), bytes.len(), code, room, room_len) }
}
