//! Memory that ends at a page which nobody may touch: an access past the end of what is lent faults, whoever makes it.

use std::ffi::{c_int, c_long, c_void};
use std::marker::PhantomData;
use std::{ptr, slice};

extern "C" {
    fn mmap(at: *mut c_void, size: usize, access: c_int, flags: c_int, file: c_int, offset: c_long) -> *mut c_void;
    fn mprotect(at: *mut c_void, size: usize, access: c_int) -> c_int;
}

// As Linux numbers them on x86-64.
const NO_ACCESS: c_int = 0;
const READ_AND_WRITE: c_int = 1 | 2;
const PRIVATE: c_int = 0x02;
const NO_FILE: c_int = 0x20;
const PAGE: usize = 4096;

/// Room for elements between two such pages. It is never given back.
pub struct Guarded<T> {
    /// Where the room ends and the page behind it begins.
    end: *mut u8,
    size: usize,
    elements: PhantomData<T>,
}

impl<T: Copy> Guarded<T> {
    /// Room for at least this many elements.
    pub fn new(most: usize) -> Guarded<T> {
        let size = (most * size_of::<T>()).next_multiple_of(PAGE);
        // SAFETY: the mapping is new, and its middle, which alone is made accessible, lies inside it.
        unsafe {
            let start = mmap(ptr::null_mut(), size + 2 * PAGE, NO_ACCESS, PRIVATE | NO_FILE, -1, 0).cast::<u8>();
            assert!(start as isize != -1, "no memory");
            assert!(mprotect(start.add(PAGE).cast(), size, READ_AND_WRITE) == 0, "no access to memory");
            Guarded { end: start.add(PAGE + size), size, elements: PhantomData }
        }
    }

    /// The contents, copied so that they end where the room ends; at most as many as there is room for.
    pub fn lend(&mut self, contents: &[T]) -> &mut [T] {
        assert!(size_of_val(contents) <= self.size, "no room");
        // SAFETY: the room has that many bytes before its end and belongs to this value alone; a page's end is aligned
        // for every element, and so is a whole number of elements before it.
        unsafe {
            let start = self.end.sub(size_of_val(contents)).cast::<T>();
            ptr::copy_nonoverlapping(contents.as_ptr(), start, contents.len());
            slice::from_raw_parts_mut(start, contents.len())
        }
    }
}
