// @generated from proved source. It is not edited.

//! The names that standards have for numbers.

use core::mem::MaybeUninit;
use crate::bytes::Bytes;

use crate::formats::uefi_c::status::{self, UefiStatus};
use crate::formats::uefi_map::MemoryType;
use crate::formats::uefi_tcg::{AlgorithmId, EventType};

/// Finds the name of a type of events (TCG PC Client Platform Firmware Profile 1.06, 10.4.1), such as
/// `EV_IPL`: ASCII without a NUL.
#[unsafe(no_mangle)]
pub extern "C" fn uefi_event_type_name<'a>(event_type: u32, name: &mut MaybeUninit<Bytes<'a>>) -> UefiStatus {
    let Some(found) = EventType(event_type).name() else {
        return status::NO_NAME;
    };
    name.write(Bytes::new(found.as_bytes()));
    status::OK
}

/// Finds the name of a type of memory (UEFI 2.10, 7.2, `EFI_MEMORY_TYPE`), such as `EfiLoaderCode`:
/// ASCII without a NUL.
#[unsafe(no_mangle)]
pub extern "C" fn uefi_memory_type_name<'a>(memory_type: u32, name: &mut MaybeUninit<Bytes<'a>>) -> UefiStatus {
    let Some(found) = MemoryType(memory_type).name() else {
        return status::NO_NAME;
    };
    name.write(Bytes::new(found.as_bytes()));
    status::OK
}

/// Finds the name of an algorithm (TCG Algorithm Registry, `TPM_ALG_ID`), such as `TPM_ALG_SHA256`:
/// ASCII without a NUL.
#[unsafe(no_mangle)]
pub extern "C" fn uefi_algorithm_name<'a>(algorithm: u16, name: &mut MaybeUninit<Bytes<'a>>) -> UefiStatus {
    let Some(found) = AlgorithmId(algorithm).name() else {
        return status::NO_NAME;
    };
    name.write(Bytes::new(found.as_bytes()));
    status::OK
}
