//! The host's machine code stays inside what it was lent: every buffer of this program ends where a forbidden page begins, so
//! that one byte read or written behind it ends the program. (Where the archive runs in a program of its own, that program has its own
//! fence, in every run: rust/server.c.)
#![cfg(target_arch = "x86_64")]
use loafheron::differ::{self, Way};
use std::alloc::{GlobalAlloc, Layout, System};

const PAGE: usize = 4_096;
/// smaller pieces of bytes are nobody's buffers
const FENCED: usize = 256;
const READ_WRITE: i32 = 3;
const PRIVATE_ANONYMOUS: i32 = 0x22;

extern "C" {
    fn mmap(at: *mut u8, len: usize, prot: i32, flags: i32, file: i32, offset: i64) -> *mut u8;
    fn mprotect(at: *mut u8, len: usize, prot: i32) -> i32;
    fn munmap(at: *mut u8, len: usize) -> i32;
}

struct Fence;

/// The bytes of the pages that hold so many.
fn whole(size: usize) -> usize {
    size.next_multiple_of(PAGE)
}

/// Bytes; and all that is made of 32-bit numbers, however small, as a table of a few entries is a buffer too. Such a piece is a whole number of
/// them, so that it may end at a page.
fn fenced(layout: &Layout) -> bool {
    match layout.align() {
        1 => FENCED <= layout.size(),
        4 => layout.size() % 4 == 0,
        _ => false,
    }
}

unsafe impl GlobalAlloc for Fence {
    unsafe fn alloc(&self, layout: Layout) -> *mut u8 {
        if !fenced(&layout) {
            return System.alloc(layout);
        }
        let pages = whole(layout.size());
        let start = mmap(std::ptr::null_mut(), pages + PAGE, READ_WRITE, PRIVATE_ANONYMOUS, -1, 0);
        if start as isize == -1 || mprotect(start.add(pages), PAGE, 0) != 0 {
            return std::ptr::null_mut();
        }
        start.add(pages - layout.size())
    }

    unsafe fn dealloc(&self, at: *mut u8, layout: Layout) {
        if !fenced(&layout) {
            return System.dealloc(at, layout);
        }
        let pages = whole(layout.size());
        munmap(at.add(layout.size()).sub(pages), pages + PAGE);
    }
}

#[global_allocator]
static ALLOCATOR: Fence = Fence;

#[test]
fn nothing_behind_a_buffer_is_touched() {
    let run = differ::run(Way::Here, 1, 60_000);
    if let Some((life, difference)) = &run.failed {
        panic!("{}", differ::told(*life, difference));
    }
    assert!(60_000 <= run.calls);
}
