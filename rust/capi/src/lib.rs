//! The functions of `uefi_formats.h`, for each target of rustc.
//!
//! `tools/build_c PREFIX --target TARGET` makes a static library of this package. The functions are
//! written by `rust/tools/erase` from proved source, over the files of the package `uefi-formats`. The module
//! `bytes` is written by hand, and has the only `unsafe` blocks.
#![no_std]
#![deny(unsafe_op_in_unsafe_fn, improper_ctypes_definitions)]

extern crate alloc;

mod bytes;
mod formats;
mod memory;
mod support;

/// A function whose result is proved doesn't panic. What rustc can't see of that ends here.
#[panic_handler]
fn panic(_info: &core::panic::PanicInfo<'_>) -> ! {
    loop {
        core::hint::spin_loop();
    }
}
