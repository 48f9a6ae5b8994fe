//! Memory handed to the first program: inputs in allocations of their own
//! length, and lent rooms with a guard behind them.

use crate::rng::Rng;

/// An input's bytes, copied so that their end is the allocation's end; now and
/// then they begin at an odd address.
pub struct Placed {
    memory: Box<[u8]>,
    shift: usize,
}

impl Placed {
    pub fn new(bytes: &[u8], rng: &mut Rng) -> Self {
        let shift = if rng.one_in(8) { 1 + rng.below(7) } else { 0 };
        let mut memory = Vec::with_capacity(shift + bytes.len());
        memory.resize(shift, 0xA5);
        memory.extend_from_slice(bytes);
        Placed {
            memory: memory.into(),
            shift,
        }
    }

    pub fn bytes(&self) -> &[u8] {
        &self.memory[self.shift..]
    }
}

/// The first `lent` elements of `memory` are lent. What stands behind them is
/// ours as well, so that a write beyond the lent part is seen afterwards.
pub struct Lent<'a, T> {
    memory: &'a mut [T],
    lent: usize,
}

impl<'a, T> Lent<'a, T> {
    pub fn front(memory: &'a mut [T], lent: usize) -> Self {
        assert!(lent <= memory.len());
        Lent { memory, lent }
    }

    pub fn whole(memory: &'a mut [T]) -> Self {
        let lent = memory.len();
        Lent { memory, lent }
    }

    /// The lent part by itself, for a stand-in that is no C function.
    pub fn room(self) -> &'a mut [T] {
        &mut self.memory[..self.lent]
    }

    /// Pointer and length for C. The pointer is good for all of `memory`.
    pub fn parts(self) -> (*mut T, usize) {
        (self.memory.as_mut_ptr(), self.lent)
    }
}
