// @generated from proved source. It is not edited.

use crate::support::fallible::*;

use crate::support::alloc::AllocError;
use uefi_formats::proto::tcg::EventType;

/// Appends the name of a type of events; of a type without a name its number in hex.
pub(crate) fn push_type(
    text: &mut String,
    event_type: EventType,
) -> Result<(), AllocError> {
    match event_type.name() {
        Some(name) => text.fallible_push_str(name),
        None => {
            let number = event_type.0;
            fallible_write!(text, "0x{:x}", number)
        }
    }
}
