#![allow(unsafe_code)]
use crate::lent::Lent;

extern "C" {
    fn niloferq_judge(
        bytes: *const u8,
        bytes_len: usize,
        counts: *mut u32,
        counts_len: usize,
    ) -> u32;
}

/// Asks the first program about `bytes` and lends it `counts`.
#[inline]
pub fn first_judge(bytes: &[u8], counts: Lent<u32>) -> u32 {
    let (counts, counts_len) = counts.parts();
    // Both pointers are good for the lengths handed over with them, and
    // `counts` is lent to nobody else during the call.
    unsafe { niloferq_judge(bytes.as_ptr(), bytes.len(), counts, counts_len) }
}
