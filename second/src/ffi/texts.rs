#![allow(unsafe_code)]
use crate::lent::Lent;

extern "C" {
    fn niloferq_pack(
        text: *const u8,
        text_len: usize,
        room: *mut u8,
        room_len: usize,
        size: *mut u32,
        size_len: usize,
    ) -> u32;
    fn niloferq_pack_why(text: *const u8, text_len: usize, room: *mut u8, room_len: usize)
        -> usize;
    fn niloferq_unpack(
        bytes: *const u8,
        bytes_len: usize,
        room: *mut u8,
        room_len: usize,
        size: *mut u32,
        size_len: usize,
    ) -> u32;
}

/// The first program's return of a text at the front of `room`, its length in `size`. A
/// text's fault is its number, 1 to 10.
#[inline]
pub fn first_pack(text: &[u8], room: Lent<u8>, size: Lent<u32>) -> u32 {
    let (room, room_len) = room.parts();
    let (size, size_len) = size.parts();
    // Every pointer is good for the length handed over with it, and each room is a borrow
    // of its own, so none overlaps another or the text.
    unsafe { niloferq_pack(text.as_ptr(), text.len(), room, room_len, size, size_len) }
}

/// The first program's reason why a text does not pack, or that it does, at the front of
/// `room`. It gives the reason's length, or 0 when the room is too short.
#[inline]
pub fn first_pack_why(text: &[u8], room: Lent<u8>) -> usize {
    let (room, room_len) = room.parts();
    // As above.
    unsafe { niloferq_pack_why(text.as_ptr(), text.len(), room, room_len) }
}

/// The first program's text of a return at the front of `room`, its length in `size`.
#[inline]
pub fn first_unpack(bytes: &[u8], room: Lent<u8>, size: Lent<u32>) -> u32 {
    let (room, room_len) = room.parts();
    let (size, size_len) = size.parts();
    // As above.
    unsafe { niloferq_unpack(bytes.as_ptr(), bytes.len(), room, room_len, size, size_len) }
}
