//! Buffers between pages that nobody may touch. On the side of its guard page a call that reads or
//! writes one byte too far ends the process; what lies between the buffer and the other guard page
//! is compared.
#![allow(dead_code)]

use std::cell::RefCell;
use std::ffi::{c_int, c_void};
use std::marker::PhantomData;
use std::ptr;
use std::slice;

extern "C" {
    fn mmap(
        at: *mut c_void,
        length: usize,
        access: c_int,
        flags: c_int,
        file: c_int,
        offset: i64,
    ) -> *mut c_void;
    fn mprotect(at: *mut c_void, length: usize, access: c_int) -> c_int;
    fn munmap(at: *mut c_void, length: usize) -> c_int;
}

/// The page of x86-64 Linux, and the flags there.
const PAGE: usize = 4096;
const NO_ACCESS: c_int = 0;
const READ_AND_WRITE: c_int = 1 | 2;
const PRIVATE_ANONYMOUS: c_int = 0x02 | 0x20;

/// What the bytes hold that belong to no buffer.
const BESIDE: u8 = 0xa5;

/// Where a guard page touches the buffer.
#[derive(Clone, Copy, Debug, PartialEq, Eq)]
pub enum Side {
    /// The buffer begins where a guard page ends.
    Front,
    /// The buffer ends where a guard page begins.
    Back,
}

pub const SIDES: [Side; 2] = [Side::Front, Side::Back];

/// Pages that may be read and written, with a guard page before and after.
struct Pages {
    start: *mut u8,
    bytes: usize,
}

impl Pages {
    fn new(bytes: usize) -> Self {
        let whole = bytes + 2 * PAGE;
        // SAFETY: new memory is asked for, and access to a part of it.
        unsafe {
            let first = mmap(ptr::null_mut(), whole, NO_ACCESS, PRIVATE_ANONYMOUS, -1, 0);
            assert_ne!(first as isize, -1, "mmap of {whole} bytes");
            let start = first.cast::<u8>().add(PAGE);
            if bytes > 0 {
                assert_eq!(mprotect(start.cast(), bytes, READ_AND_WRITE), 0, "mprotect");
            }
            Self { start, bytes }
        }
    }
}

impl Drop for Pages {
    fn drop(&mut self) {
        // SAFETY: this is what `new` mapped, and no buffer is left in it.
        unsafe {
            assert_eq!(munmap(self.start.sub(PAGE).cast(), self.bytes + 2 * PAGE), 0, "munmap");
        }
    }
}

thread_local! {
    /// Pages that no buffer lies in at the moment.
    static SPARE: RefCell<Vec<Pages>> = const { RefCell::new(Vec::new()) };
}

fn pages(bytes: usize) -> Pages {
    let spare = SPARE.with_borrow_mut(|spare| {
        let at = spare.iter().position(|pages| pages.bytes == bytes)?;
        Some(spare.swap_remove(at))
    });
    spare.unwrap_or_else(|| Pages::new(bytes))
}

/// A lent buffer at a guard page.
pub struct Guarded<C> {
    pages: Option<Pages>,
    /// Bytes from the first page on.
    from: usize,
    length: usize,
    cells: PhantomData<C>,
}

impl<C: Copy + PartialEq> Guarded<C> {
    pub fn new(content: &[C], side: Side) -> Self {
        let size = size_of_val(content);
        let pages = pages(size.next_multiple_of(PAGE));
        let from = if side == Side::Front { 0 } else { pages.bytes - size };
        let (length, cells) = (content.len(), PhantomData);
        let mut guarded = Self { pages: Some(pages), from, length, cells };
        guarded.bytes().fill(BESIDE);
        guarded.slice().copy_from_slice(content);
        guarded
    }

    fn pages(&self) -> &Pages {
        self.pages.as_ref().expect("pages until dropped")
    }

    /// All that may be read and written.
    fn bytes(&mut self) -> &mut [u8] {
        let Pages { start, bytes } = *self.pages();
        // SAFETY: the pages are this buffer's alone, and any byte is a number.
        unsafe { slice::from_raw_parts_mut(start, bytes) }
    }

    /// The first cell; of an empty buffer, where one would be.
    pub fn pointer(&self) -> *mut C {
        // SAFETY: `from` is at most the length of the pages.
        unsafe { self.pages().start.add(self.from).cast() }
    }

    pub fn slice(&mut self) -> &mut [C] {
        // SAFETY: the cells lie in the pages, which are this buffer's alone; pages and their ends
        // are aligned for every cell, and so is what lies a number of cells before an end.
        unsafe { slice::from_raw_parts_mut(self.pointer(), self.length) }
    }

    /// The buffer holds just this, and nothing beside it was written.
    #[track_caller]
    pub fn assert_holds(&mut self, content: &[C], what: &str) {
        assert!(self.slice() == content, "the buffer after {what}");
        let (from, to) = (self.from, self.from + size_of_val(content));
        let bytes = self.bytes();
        let beside = bytes[..from].iter().chain(&bytes[to..]);
        assert!(beside.copied().all(|byte| byte == BESIDE), "bytes beside it after {what}");
    }
}

impl<C> Drop for Guarded<C> {
    fn drop(&mut self) {
        let pages = self.pages.take();
        // Where the thread ends, the pages go with it.
        let _ = SPARE.try_with(|spare| spare.borrow_mut().extend(pages));
    }
}
