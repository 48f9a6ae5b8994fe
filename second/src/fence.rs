//! Lent memory with nothing to touch beside it: an area flush against a page
//! without access, behind it or before it, or an allocation of its own length.

#![allow(unsafe_code)]
use std::ffi::{c_int, c_void};
use std::ops::{Deref, DerefMut};

/// A multiple of every page size in use, and longer than any text that is looked at.
const PAGE: usize = 4 * 65_536;

const NO_ACCESS: c_int = 0;
const READ_WRITE: c_int = 1 | 2;
/// Private and anonymous, as Linux numbers them.
const OWN_MEMORY: c_int = 2 | 32;

extern "C" {
    fn mmap(
        at: *mut c_void,
        length: usize,
        access: c_int,
        kind: c_int,
        file: c_int,
        from: i64,
    ) -> *mut c_void;
    fn mprotect(at: *mut c_void, length: usize, access: c_int) -> c_int;
    fn munmap(at: *mut c_void, length: usize) -> c_int;
}

/// Where an area's memory is taken.
#[derive(Clone, Copy, Debug, PartialEq, Eq)]
pub enum Place {
    /// It begins where the page before it ends.
    Before,
    /// It ends where the page behind it begins.
    Behind,
    /// From the heap by itself, for a checker that fences allocations.
    Heap,
}

/// Numbers that any bits are good for, and whose alignment divides `PAGE`.
pub trait Number: Copy {}
impl Number for u8 {}
impl Number for i32 {}
impl Number for u32 {}
impl Number for u64 {}

/// A page between two pages without access. It holds one area at a time.
pub struct Fence {
    before: *mut u8,
}

impl Fence {
    pub fn new() -> Self {
        // A new mapping of three pages touches no memory of ours.
        let before = unsafe {
            let none = std::ptr::null_mut();
            mmap(none, 3 * PAGE, NO_ACCESS, OWN_MEMORY, -1, 0)
        };
        assert!(before as isize != -1, "no memory for a fence");
        let before: *mut u8 = before.cast();
        let middle = before.wrapping_add(PAGE).cast();
        // The middle page is inside the mapping.
        let failed = unsafe { mprotect(middle, PAGE, READ_WRITE) };
        assert!(failed == 0, "a fence's middle page can't be opened");
        Fence { before }
    }

    /// A copy of `contents` at this place.
    pub fn area<T: Number>(&mut self, place: Place, contents: &[T]) -> Area<'_, T> {
        let bytes = size_of_val(contents);
        assert!(bytes <= PAGE, "an area of {bytes} bytes");
        let middle = self.before.wrapping_add(PAGE);
        let start = match place {
            Place::Before => middle,
            Place::Behind => middle.wrapping_add(PAGE - bytes),
            Place::Heap => return Area::Alone(contents.into()),
        };
        // Inside the middle page, where every byte is a number's (zero at
        // first), aligned since pages are and the length is whole numbers, and
        // borrowed from `self`, so that no other area is there meanwhile.
        let area = unsafe { std::slice::from_raw_parts_mut(start.cast(), contents.len()) };
        area.copy_from_slice(contents);
        Area::Fenced(area)
    }
}

impl Default for Fence {
    fn default() -> Self {
        Self::new()
    }
}

impl Drop for Fence {
    fn drop(&mut self) {
        // The whole mapping, which no area outlives.
        unsafe { munmap(self.before.cast(), 3 * PAGE) };
    }
}

pub enum Area<'a, T> {
    Fenced(&'a mut [T]),
    Alone(Box<[T]>),
}

impl<T> Deref for Area<'_, T> {
    type Target = [T];

    fn deref(&self) -> &[T] {
        match self {
            Area::Fenced(area) => area,
            Area::Alone(area) => area,
        }
    }
}

impl<T> DerefMut for Area<'_, T> {
    fn deref_mut(&mut self) -> &mut [T] {
        match self {
            Area::Fenced(area) => area,
            Area::Alone(area) => area,
        }
    }
}

/// Touches the byte before an area's first or behind its last, on purpose: the
/// fence is to stop it. The byte is given back because valgrind passes over a
/// read whose value isn't used.
pub fn cross(area: &mut Area<u8>, behind: bool, writing: bool) -> u8 {
    let first = area.as_mut_ptr();
    let outside = if behind {
        first.wrapping_add(area.len())
    } else {
        first.wrapping_sub(1)
    };
    // Not allowed; that is what it is for. Volatile, so that it is done.
    unsafe {
        if writing {
            outside.write_volatile(0);
            0
        } else {
            outside.read_volatile()
        }
    }
}

#[cfg(test)]
mod tests {
    use super::*;

    #[test]
    fn areas_lie_flush() {
        let mut fence = Fence::new();
        let middle = fence.before.wrapping_add(PAGE);
        for length in [0, 1, 3, 850, PAGE] {
            let contents = vec![7; length];
            let before = fence.area(Place::Before, &contents);
            assert_eq!(before.as_ptr(), middle.cast_const());
            assert_eq!(*before, contents);
            let behind = fence.area(Place::Behind, &contents);
            assert_eq!(
                behind.as_ptr_range().end,
                middle.wrapping_add(PAGE).cast_const()
            );
            assert_eq!(*behind, contents);
            assert_eq!(*fence.area(Place::Heap, &contents), contents);
        }
        let words = fence.area(Place::Behind, &[1u32, 2, 3]);
        assert_eq!(
            words.as_ptr_range().end.cast(),
            middle.wrapping_add(PAGE).cast_const()
        );
        assert_eq!(*words, [1, 2, 3]);
    }
}
