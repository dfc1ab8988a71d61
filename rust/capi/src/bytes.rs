//! Slices as C hands them over: where they begin, and how many bytes there are.

use core::marker::PhantomData;
use core::mem::MaybeUninit;

use crate::formats::uefi_c::workspace::UefiWorkspace;

/// Bytes that are read (`UefiBytes`).
///
/// One comes from C, which the header binds: `at` isn't null, and the `n` bytes there can be read and
/// stay as they are while the call runs. Or it is made of a slice.
#[derive(Clone, Copy, Debug)]
#[repr(C)]
pub(crate) struct Bytes<'a> {
    at: *const u8,
    n: usize,
    of: PhantomData<&'a [u8]>,
}

impl<'a> Bytes<'a> {
    /// Returns the bytes of a slice.
    #[inline]
    pub(crate) fn new(slice: &'a [u8]) -> Bytes<'a> {
        Bytes {
            at: slice.as_ptr(),
            n: slice.len(),
            of: PhantomData,
        }
    }

    /// Returns the bytes as a slice.
    #[inline]
    pub(crate) fn as_slice(self) -> &'a [u8] {
        // SAFETY: the caller in C ensures it, or these are the bytes of a slice that lives as long.
        unsafe { core::slice::from_raw_parts(self.at, self.n) }
    }
}

/// A buffer that is written (`UefiBuffer`).
///
/// It comes from C, which the header binds: `at` isn't null, and nothing else reads or writes the `n`
/// bytes there while the call runs.
#[derive(Debug)]
#[repr(C)]
pub(crate) struct Buffer<'a> {
    at: *mut u8,
    n: usize,
    of: PhantomData<&'a mut [u8]>,
}

impl<'a> Buffer<'a> {
    /// Returns the buffer as a slice.
    #[inline]
    pub(crate) fn into_slice(self) -> &'a mut [u8] {
        // SAFETY: the caller in C ensures it, and there is one `Buffer` of these bytes.
        unsafe { core::slice::from_raw_parts_mut(self.at, self.n) }
    }
}

/// Returns the workspace in memory of C's (`UefiWorkspace`), which needn't have been set.
#[inline]
pub(crate) fn workspace_in(memory: &mut MaybeUninit<UefiWorkspace>) -> &mut UefiWorkspace {
    // SAFETY: it consists of numbers alone, and zeros are such. They are written here, in its place, so
    // that it isn't on the stack.
    unsafe {
        core::ptr::write_bytes(memory.as_mut_ptr(), 0, 1);
        memory.assume_init_mut()
    }
}
