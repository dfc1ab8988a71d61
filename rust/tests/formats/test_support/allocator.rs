//! An allocator for tests: it grants a thread a number of requests, and refuses every later one.

use crate::support::test::Fail;
use std::alloc::{GlobalAlloc, Layout, System};
use std::cell::Cell;
use std::fmt::Debug;
use std::ptr;

thread_local! {
    /// The requests that are still granted, if they are counted; `None` in it once one was refused.
    static GRANTED: Cell<Option<Option<u64>>> = const { Cell::new(None) };
}

/// Counts a request down, and returns whether it is refused.
fn refuses() -> bool {
    GRANTED
        .try_with(|granted| {
            let Some(left) = granted.get() else {
                return false;
            };
            let left = left.and_then(|count| count.checked_sub(1));
            granted.set(Some(left));
            left.is_none()
        })
        .unwrap_or(false)
}

/// The allocator of the test program.
struct Heap;

#[global_allocator]
static HEAP: Heap = Heap;

unsafe impl GlobalAlloc for Heap {
    unsafe fn alloc(&self, layout: Layout) -> *mut u8 {
        if refuses() { ptr::null_mut() } else { unsafe { System.alloc(layout) } }
    }

    unsafe fn realloc(&self, block: *mut u8, layout: Layout, size: usize) -> *mut u8 {
        if refuses() { ptr::null_mut() } else { unsafe { System.realloc(block, layout, size) } }
    }

    unsafe fn dealloc(&self, block: *mut u8, layout: Layout) {
        unsafe { System.dealloc(block, layout) }
    }
}

/// This thread's requests are counted as long as it lives.
pub struct Refusing;

impl Refusing {
    /// Grants the next requests, this many, and none after them.
    pub fn after(granted: u64) -> Refusing {
        GRANTED.set(Some(Some(granted)));
        Refusing
    }

    /// Returns whether no request was refused so far.
    pub fn is_waiting(&self) -> bool {
        GRANTED.get().flatten().is_some()
    }
}

impl Drop for Refusing {
    fn drop(&mut self) {
        GRANTED.set(None);
    }
}

/// The most requests that [`in_turn`] grants.
const MOST_REQUESTS: u64 = 100;

/// Makes a call with no request granted, then with one, and so on, until it doesn't run out of
/// memory, and returns how many requests were granted then.
pub fn in_turn<T: PartialEq + Debug>(expected: &T, call: impl Fn() -> Option<T>) -> Result<u64, Fail> {
    for granted in 0..MOST_REQUESTS {
        let heap = Refusing::after(granted);
        let given = call();
        let waits = heap.is_waiting();
        drop(heap);
        if given.is_some() != waits {
            return Err(Fail::new(format_args!("found {given:?} with {granted} requests granted")));
        }
        if let Some(found) = given {
            if found != *expected {
                return Err(Fail::new(format_args!("found {found:?}, expected {expected:?}")));
            }
            return Ok(granted);
        }
    }
    Err(Fail::new("the call asks for more than 100 requests"))
}

/// Makes a call as [`in_turn`] does, and checks that it asks for memory.
pub fn takes_memory<T: PartialEq + Debug>(expected: &T, call: impl Fn() -> Option<T>) -> Result<(), Fail> {
    match in_turn(expected, call)? {
        0 => Err(Fail::new("the call asks for no memory")),
        _ => Ok(()),
    }
}

/// Checks that a call asks for no memory.
pub fn without_request<T: PartialEq + Debug>(expected: &T, call: impl Fn() -> T) -> Result<(), Fail> {
    let heap = Refusing::after(0);
    let found = call();
    let waits = heap.is_waiting();
    drop(heap);
    if found != *expected || !waits {
        return Err(Fail::new(format_args!("found {found:?}, expected {expected:?} without a request")));
    }
    Ok(())
}
