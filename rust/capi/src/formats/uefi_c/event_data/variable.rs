// @generated from proved source. It is not edited.

use core::mem::MaybeUninit;
use crate::bytes::Bytes;

use crate::formats::uefi_c::cursor::units_at;
use crate::formats::uefi_c::status::{self, UefiStatus};
use crate::formats::tcg_event::VariableData;

/// The offset of the name in a variable's data.
const NAME_OFFSET: usize = 32;

/// A variable that was measured (TCG PC Client Platform Firmware Profile 1.06, 10.2.6,
/// `UEFI_VARIABLE_DATA`).
#[derive(Clone, Copy, Debug)]
#[repr(C)]
pub struct UefiVariable<'a> {
    /// The bytes of the name: units of two bytes, little-endian, without a NUL.
    pub name: Bytes<'a>,
    /// The variable's data.
    pub value: Bytes<'a>,
    /// The GUID of the vendor.
    pub guid: [u8; 16],
}

/// Reads the variable that the data of an event are, whole and alone.
#[unsafe(no_mangle)]
pub extern "C" fn uefi_variable<'a>(event_data: Bytes<'a>, out: &mut MaybeUninit<UefiVariable<'a>>) -> UefiStatus {
    let event_data = event_data.as_slice();
    let Some(variable) = VariableData::read(event_data) else {
        return status::OTHER_DATA;
    };
    out.write(UefiVariable {
        name: Bytes::new(units_at(event_data, NAME_OFFSET, variable.name.len())),
        value: Bytes::new(variable.data),
        guid: variable.guid.0,
    });
    status::OK
}
