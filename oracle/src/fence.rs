//! A buffer between pages that may not be touched: reading or writing past either end stops the program at once. The
//! gap that is left between the buffer and the farther page holds canaries.

use std::ffi::{c_int, c_void};
use std::ptr;

unsafe extern "C" {
    fn mmap(at: *mut c_void, len: usize, access: c_int, flags: c_int, file: c_int, offset: i64) -> *mut c_void;
    fn mprotect(at: *mut c_void, len: usize, access: c_int) -> c_int;
    fn munmap(at: *mut c_void, len: usize) -> c_int;
    fn getpagesize() -> c_int;
}

const NO_ACCESS: c_int = 0;
const READ_WRITE: c_int = 3;
/// Private, anonymous, no swap reserved: the numbers of Linux.
const FLAGS: c_int = 0x2 | 0x20 | 0x4000;
const CANARY: u8 = 0x5a;

/// Which end of the buffer touches a forbidden page.
#[derive(Debug, Clone, Copy, PartialEq, Eq)]
pub enum Flush {
    Start,
    End,
}

pub struct Fence {
    base: *mut u8,
    page: usize,
    inner: usize,
    start: usize,
    len: usize,
}

impl Fence {
    /// Room for buffers of up to `most` bytes, zeroed.
    pub fn new(most: usize) -> Self {
        // Safety: it takes and touches nothing.
        let page = unsafe { getpagesize() } as usize;
        let inner = most.div_ceil(page).max(1) * page;
        // Safety: a fresh mapping, of which only the middle is opened.
        let base: *mut u8 = unsafe {
            let base = mmap(ptr::null_mut(), inner + 2 * page, NO_ACCESS, FLAGS, -1, 0);
            assert!(base as isize != -1, "no memory for a buffer of {most} bytes");
            assert!(mprotect(base.byte_add(page), inner, READ_WRITE) == 0);
            base.cast()
        };
        Fence { base, page, inner, start: 0, len: inner }
    }

    /// A buffer of `len` bytes at one end, its bytes left as they are, and canaries in the gap.
    pub fn place(&mut self, len: usize, flush: Flush) -> &mut [u8] {
        assert!(len <= self.inner);
        self.len = len;
        self.start = if flush == Flush::Start { 0 } else { self.inner - len };
        let start = self.start;
        let open = self.open_mut();
        open[..start].fill(CANARY);
        open[start + len..].fill(CANARY);
        self.buffer_mut()
    }

    pub fn buffer_mut(&mut self) -> &mut [u8] {
        let (start, len) = (self.start, self.len);
        &mut self.open_mut()[start..start + len]
    }

    pub fn buffer(&self) -> &[u8] {
        &self.open()[self.start..self.start + self.len]
    }

    /// Whether the canaries stand.
    pub fn intact(&self) -> bool {
        let (before, rest) = self.open().split_at(self.start);
        let after = &rest[self.len..];
        before.iter().all(|byte| *byte == CANARY) && after.iter().all(|byte| *byte == CANARY)
    }

    fn open(&self) -> &[u8] {
        // Safety: the open middle of the mapping, borrowed with it.
        unsafe { std::slice::from_raw_parts(self.base.add(self.page), self.inner) }
    }

    fn open_mut(&mut self) -> &mut [u8] {
        // Safety: as for `open`.
        unsafe { std::slice::from_raw_parts_mut(self.base.add(self.page), self.inner) }
    }
}

impl Drop for Fence {
    fn drop(&mut self) {
        // Safety: the mapping of `new`, which nothing borrows any more.
        unsafe { munmap(self.base.cast(), self.inner + 2 * self.page) };
    }
}
