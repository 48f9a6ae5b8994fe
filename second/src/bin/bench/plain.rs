//! The same in plain C, from plain_returns.c.
#![allow(unsafe_code)]

use second::kinds::COUNTS_ROOM;
#[cfg(feature = "rows")]
use second::kinds::ROWS_ROOM;

extern "C" {
    fn plain_judge(bytes: *const u8, length: usize, counts: *mut u32) -> u32;
    #[cfg(feature = "doubles")]
    fn plain_subtotal(bytes: *const u8, length: usize, code: u32, room: *mut f64) -> u32;
    #[cfg(feature = "rows")]
    fn plain_read(bytes: *const u8, length: usize, rows: *mut u32, counts: *mut u32) -> u32;
}

// In each, every pointer is good for what the C function does with it.
pub fn judge(bytes: &[u8], counts: &mut [u32; COUNTS_ROOM]) -> u32 {
    unsafe { plain_judge(bytes.as_ptr(), bytes.len(), counts.as_mut_ptr()) }
}

#[cfg(feature = "doubles")]
pub fn subtotal(bytes: &[u8], code: u32, room: &mut f64) -> u32 {
    unsafe { plain_subtotal(bytes.as_ptr(), bytes.len(), code, room) }
}

/// Room for any return's rows.
#[cfg(feature = "rows")]
pub fn read(bytes: &[u8], rows: &mut [u32; ROWS_ROOM], counts: &mut [u32; COUNTS_ROOM]) -> u32 {
    let (rows, counts) = (rows.as_mut_ptr(), counts.as_mut_ptr());
    unsafe { plain_read(bytes.as_ptr(), bytes.len(), rows, counts) }
}
