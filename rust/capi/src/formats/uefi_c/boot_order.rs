// @generated from proved source. It is not edited.

use core::mem::MaybeUninit;
use crate::bytes::Bytes;

use crate::formats::uefi_c::status::{self, UefiStatus};
use crate::formats::tcg_event::BootOrder;

/// Reads the number at an index of the order of boot options that the bytes are: the value of the
/// variable `BootOrder`. Option 1 is that of the variable `Boot0001`.
#[unsafe(no_mangle)]
pub extern "C" fn uefi_boot_order(bytes: Bytes<'_>, index: usize, out: &mut MaybeUninit<u16>) -> UefiStatus {
    let bytes = bytes.as_slice();
    let Some(order) = BootOrder::read(bytes) else {
        return status::OTHER_DATA;
    };
    let Some(number) = order.numbers().get(index) else {
        return status::END;
    };
    out.write(number);
    status::OK
}
