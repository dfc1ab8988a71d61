//! No memory is taken. The package `uefi-formats` has calls that take some: none of them is linked.

use core::alloc::{GlobalAlloc, Layout};
use core::ptr::null_mut;

struct NoMemory;

// SAFETY: an allocator may refuse each request, and is asked to free what it gave out alone.
unsafe impl GlobalAlloc for NoMemory {
    unsafe fn alloc(&self, _layout: Layout) -> *mut u8 {
        null_mut()
    }

    unsafe fn dealloc(&self, _memory: *mut u8, _layout: Layout) {}
}

#[global_allocator]
static MEMORY: NoMemory = NoMemory;
