//! Equality of values with equal parts, and of what owns its bytes.

use crate::formats::pcr_replay::Pcrs;
use crate::formats::uefi_map::MemoryMapMeta;
use crate::formats::uefi_path::{LoadOption, LoadOptionDescription, LoadOptionParts};
use crate::formats::uefi_tcg::LogEvent;

/// Two descriptions are equal if all their units are.
impl PartialEq for LoadOptionDescription<'_> {
    fn eq(&self, other: &Self) -> bool {
        use LoadOptionDescription::{Text, Units};
        match (self, other) {
            (Text(one), Text(other)) => one == other,
            (Units(one), Units(other)) => one == other,
            (Text(text), Units(units)) | (Units(units), Text(text)) => {
                units.iter().eq(text.as_u16_with_nul().iter().copied())
            }
        }
    }
}

impl Eq for LoadOptionDescription<'_> {}

/// Parts are equal if the options that are written from them have the same bytes.
impl PartialEq for LoadOptionParts<'_> {
    fn eq(&self, other: &Self) -> bool {
        self.attributes == other.attributes
            && self.description == other.description
            && self.file_path_list == other.file_path_list
            && self.optional_data == other.optional_data
    }
}

impl Eq for LoadOptionParts<'_> {}

/// Two options are equal if all their bytes are.
impl PartialEq for LoadOption<'_> {
    fn eq(&self, other: &Self) -> bool {
        self.parts() == other.parts()
    }
}

impl Eq for LoadOption<'_> {}

impl PartialEq for MemoryMapMeta {
    fn eq(&self, other: &Self) -> bool {
        self.map_size == other.map_size
            && self.desc_size == other.desc_size
            && self.map_key == other.map_key
            && self.desc_version == other.desc_version
    }
}

impl Eq for MemoryMapMeta {}

/// Two events are equal if they are of one version and all their bytes are equal.
impl PartialEq for LogEvent<'_> {
    fn eq(&self, other: &Self) -> bool {
        match (self, other) {
            (LogEvent::V1(one), LogEvent::V1(other)) => one == other,
            (LogEvent::V2(one), LogEvent::V2(other)) => one == other,
            _ => false,
        }
    }
}

impl Eq for LogEvent<'_> {}

/// PCRs are equal if each holds the same value, or is undetermined by the same event.
impl PartialEq for Pcrs {
    fn eq(&self, other: &Self) -> bool {
        self.outcomes() == other.outcomes()
    }
}

impl Eq for Pcrs {}

#[cfg(feature = "alloc")]
mod owned {
    use crate::formats::uefi_path::{BoxedDevicePath, BoxedDevicePathInstance, BoxedLoadOption};
    use crate::formats::uefi_tcg::v1::BoxedPcrEvent;
    use crate::formats::uefi_tcg::v2::BoxedPcrEventInputs;

    /// Implements equality by what a call returns.
    macro_rules! equal_by {
        ($($owned:ty, $view:ident;)*) => {$(
            /// Equality of all bytes.
            impl PartialEq for $owned {
                fn eq(&self, other: &Self) -> bool {
                    self.$view() == other.$view()
                }
            }

            impl Eq for $owned {}
        )*};
    }

    equal_by! {
        BoxedDevicePath, as_path;
        BoxedDevicePathInstance, as_instance;
        BoxedLoadOption, as_bytes;
        BoxedPcrEvent, as_event;
        BoxedPcrEventInputs, as_inputs;
    }
}
