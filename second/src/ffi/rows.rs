#![allow(unsafe_code)]
use crate::lent::Lent;

extern "C" {
    fn niloferq_read(
        bytes: *const u8,
        bytes_len: usize,
        rows: *mut u32,
        rows_len: usize,
        counts: *mut u32,
        counts_len: usize,
    ) -> u32;

    fn niloferq_write(
        edition: u32,
        rows: *const u32,
        rows_len: usize,
        lengths: *const u32,
        lengths_len: usize,
        room: *mut u8,
        room_len: usize,
        size: *mut u32,
        size_len: usize,
    ) -> u32;
}

/// The first program's rows of `bytes` in `rows`, and the edition and their
/// numbers in `counts`.
#[inline]
pub fn first_read(bytes: &[u8], rows: Lent<u32>, counts: Lent<u32>) -> u32 {
    let (rows, rows_len) = rows.parts();
    let (counts, counts_len) = counts.parts();
    // Every pointer is good for the length handed over with it, and each room
    // is a borrow of its own, so none overlaps another or the bytes.
    unsafe {
        niloferq_read(
            bytes.as_ptr(),
            bytes.len(),
            rows,
            rows_len,
            counts,
            counts_len,
        )
    }
}

/// The first program's blocks of these rows in `room`, their length in `size`.
#[inline]
pub fn first_write(
    edition: u32,
    rows: &[u32],
    lengths: &[u32],
    room: Lent<u8>,
    size: Lent<u32>,
) -> u32 {
    let (room, room_len) = room.parts();
    let (size, size_len) = size.parts();
    // As above.
    unsafe {
        niloferq_write(
            edition,
            rows.as_ptr(),
            rows.len(),
            lengths.as_ptr(),
            lengths.len(),
            room,
            room_len,
            size,
            size_len,
        )
    }
}
