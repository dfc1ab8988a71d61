// @generated from proved source. It is not edited.

use crate::rows::quoted;
use crate::uefi_map::{MemoryAttribute, MemoryMapError, MemoryType, ResourceError};

/// Returns the value that has a name, as its type and its number.
pub(crate) fn named(name: &str) -> Option<String> {
    if let Some(set) = attribute_of(name) {
        return fallible_format!("{set:?}").ok();
    }
    let Some(memory_type) = type_of(name) else {
        return fallible_format!("there is no such name").ok();
    };
    fallible_format!("MemoryType({})", memory_type.0).ok()
}

/// Returns the attributes that have a name.
fn attribute_of(name: &str) -> Option<MemoryAttribute> {
    Some(match name {
        "MemoryAttribute::UNCACHEABLE" => MemoryAttribute::UNCACHEABLE,
        "MemoryAttribute::WRITE_COMBINE" => MemoryAttribute::WRITE_COMBINE,
        "MemoryAttribute::WRITE_THROUGH" => MemoryAttribute::WRITE_THROUGH,
        "MemoryAttribute::WRITE_BACK" => MemoryAttribute::WRITE_BACK,
        "MemoryAttribute::UNCACHABLE_EXPORTED" => MemoryAttribute::UNCACHABLE_EXPORTED,
        "MemoryAttribute::WRITE_PROTECT" => MemoryAttribute::WRITE_PROTECT,
        "MemoryAttribute::READ_PROTECT" => MemoryAttribute::READ_PROTECT,
        "MemoryAttribute::EXECUTE_PROTECT" => MemoryAttribute::EXECUTE_PROTECT,
        "MemoryAttribute::NON_VOLATILE" => MemoryAttribute::NON_VOLATILE,
        "MemoryAttribute::MORE_RELIABLE" => MemoryAttribute::MORE_RELIABLE,
        "MemoryAttribute::READ_ONLY" => MemoryAttribute::READ_ONLY,
        "MemoryAttribute::SPECIAL_PURPOSE" => MemoryAttribute::SPECIAL_PURPOSE,
        "MemoryAttribute::CPU_CRYPTO" => MemoryAttribute::CPU_CRYPTO,
        "MemoryAttribute::RUNTIME" => MemoryAttribute::RUNTIME,
        "MemoryAttribute::ISA_VALID" => MemoryAttribute::ISA_VALID,
        "MemoryAttribute::ISA_MASK" => MemoryAttribute::ISA_MASK,
        "MemoryAttribute::empty" => MemoryAttribute::empty(),
        "MemoryAttribute::default" => MemoryAttribute::default(),
        _ => return None,
    })
}

/// Returns the type of memory that has a name.
fn type_of(name: &str) -> Option<MemoryType> {
    Some(match name {
        "MemoryType::RESERVED" => MemoryType::RESERVED,
        "MemoryType::LOADER_CODE" => MemoryType::LOADER_CODE,
        "MemoryType::LOADER_DATA" => MemoryType::LOADER_DATA,
        "MemoryType::BOOT_SERVICES_CODE" => MemoryType::BOOT_SERVICES_CODE,
        "MemoryType::BOOT_SERVICES_DATA" => MemoryType::BOOT_SERVICES_DATA,
        "MemoryType::RUNTIME_SERVICES_CODE" => MemoryType::RUNTIME_SERVICES_CODE,
        "MemoryType::RUNTIME_SERVICES_DATA" => MemoryType::RUNTIME_SERVICES_DATA,
        "MemoryType::CONVENTIONAL" => MemoryType::CONVENTIONAL,
        "MemoryType::UNUSABLE" => MemoryType::UNUSABLE,
        "MemoryType::ACPI_RECLAIM" => MemoryType::ACPI_RECLAIM,
        "MemoryType::ACPI_NON_VOLATILE" => MemoryType::ACPI_NON_VOLATILE,
        "MemoryType::MMIO" => MemoryType::MMIO,
        "MemoryType::MMIO_PORT_SPACE" => MemoryType::MMIO_PORT_SPACE,
        "MemoryType::PAL_CODE" => MemoryType::PAL_CODE,
        "MemoryType::PERSISTENT_MEMORY" => MemoryType::PERSISTENT_MEMORY,
        "MemoryType::UNACCEPTED" => MemoryType::UNACCEPTED,
        _ => return None,
    })
}

/// Returns what the error with a name is displayed as.
pub(crate) fn error_text(name: &str) -> Option<String> {
    let text = match name {
        "MemoryMapError::InvalidSize" => fallible_format!("{}", MemoryMapError::InvalidSize),
        "MemoryMapError::Misaligned" => fallible_format!("{}", MemoryMapError::Misaligned),
        "ResourceError::NoEndTag" => fallible_format!("{}", ResourceError::NoEndTag),
        "ResourceError::CutRecord" => fallible_format!("{}", ResourceError::CutRecord),
        "ResourceError::UnknownTag(18)" => fallible_format!("{}", ResourceError::UnknownTag(18)),
        _ => fallible_format!("{}", ResourceError::Memory),
    };
    quoted(text.ok()?.as_str()).ok()
}
