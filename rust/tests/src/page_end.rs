//! Slices that end where the memory does: nobody may read the page after them,
//! and nobody may write them. Whoever does is stopped by the machine.

use std::ffi::c_void;
use std::marker::PhantomData;
use std::mem::{size_of, size_of_val};
use std::os::raw::{c_int, c_long};
use std::ptr::{copy_nonoverlapping, null_mut};
use std::slice::from_raw_parts;

use crate::guarded::Number;

// Of Linux on x86-64.
const NOTHING: c_int = 0;
const READ: c_int = 1;
const WRITE: c_int = 2;
const PRIVATE_AND_EMPTY: c_int = 0x22;
const PAGE_SIZE: c_int = 30;

extern "C" {
    fn mmap(
        at: *mut c_void,
        length: usize,
        rights: c_int,
        kind: c_int,
        file: c_int,
        offset: c_long,
    ) -> *mut c_void;
    fn mprotect(at: *mut c_void, length: usize, rights: c_int) -> c_int;
    fn munmap(at: *mut c_void, length: usize) -> c_int;
    fn sysconf(name: c_int) -> c_long;
}

/// A slice to lend, with its end at the end of a page.
pub struct AtPageEnd<T> {
    pages: *mut c_void,
    /// The bytes of the pages that can be read, and of the one that cannot.
    readable: usize,
    barred: usize,
    length: usize,
    numbers: PhantomData<T>,
}

impl<T: Number> AtPageEnd<T> {
    /// A copy of a slice.
    ///
    /// # Panics
    /// When there is no memory.
    pub fn copy(inner: &[T]) -> AtPageEnd<T> {
        let bytes = size_of_val(inner);
        // SAFETY: new pages are asked for, which nothing else knows of. They are
        // filled while they can be written, up to the last readable byte.
        unsafe {
            let page = sysconf(PAGE_SIZE) as usize;
            let readable = (bytes / page + 1) * page;
            let all = readable + page;
            let pages = mmap(null_mut(), all, READ | WRITE, PRIVATE_AND_EMPTY, -1, 0);
            assert!(pages as isize != -1, "no memory");
            let slice = AtPageEnd {
                pages,
                readable,
                barred: page,
                length: inner.len(),
                numbers: PhantomData,
            };
            copy_nonoverlapping(inner.as_ptr(), slice.start() as *mut T, inner.len());
            let barred = (pages as *mut u8).add(readable) as *mut c_void;
            assert_eq!(mprotect(pages, readable, READ), 0);
            assert_eq!(mprotect(barred, page, NOTHING), 0);
            slice
        }
    }

    fn start(&self) -> *const T {
        let before = self.readable - size_of::<T>() * self.length;
        // SAFETY: that many bytes before the slice are of the same pages.
        unsafe { (self.pages as *const u8).add(before) as *const T }
    }

    /// The slice, to be lent.
    pub fn lent(&self) -> &[T] {
        // SAFETY: the pages hold so many numbers from here on, as long as this
        // is there, and nobody writes them.
        unsafe { from_raw_parts(self.start(), self.length) }
    }
}

impl<T> Drop for AtPageEnd<T> {
    fn drop(&mut self) {
        // SAFETY: these are the pages that were asked for; no borrow is left.
        unsafe { munmap(self.pages, self.readable + self.barred) };
    }
}
