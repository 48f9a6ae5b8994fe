#![allow(unsafe_code)]
use crate::lent::Lent;

extern "C" {
    fn niloferq_table52(country: u32, zone: u32, room: *mut i32, room_len: usize) -> u32;
    fn niloferq_defaults(room: *mut u32, room_len: usize) -> u32;
}

/// The first program's entry of table 5-2 at the front of `room`. The numbers off
/// the table are 1 and 2.
#[inline]
pub fn first_table52(country: u32, zone: u32, room: Lent<i32>) -> u32 {
    let (room, room_len) = room.parts();
    // The pointer is good for the length handed over with it, and `room` is lent
    // to nobody else during the call.
    unsafe { niloferq_table52(country, zone, room, room_len) }
}

/// The first program's default parameters at the front of `room`.
#[inline]
pub fn first_defaults(room: Lent<u32>) -> u32 {
    let (room, room_len) = room.parts();
    // As above.
    unsafe { niloferq_defaults(room, room_len) }
}
