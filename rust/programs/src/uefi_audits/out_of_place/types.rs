// @generated from proved source. It is not edited.

use uefi_formats::proto::tcg::EventType;

/// Returns the types of the events that extend a PCR of firmware, beside `EV_SEPARATOR` (TCG PC Client
/// Platform Firmware Profile 1.06, 10.4.1); none of a PCR above 7.
pub fn types_in(pcr: u32) -> &'static [EventType] {
    match pcr {
        0 => &[
            EventType::PREBOOT_CERT,
            EventType::POST_CODE,
            EventType::EVENT_TAG,
            EventType::CRTM_CONTENTS,
            EventType::CRTM_VERSION,
            EventType::CPU_MICROCODE,
            EventType::NONHOST_CODE,
            EventType::NONHOST_INFO,
            EventType::POST_CODE2,
            EventType::EFI_BOOT_SERVICES_DRIVER,
            EventType::EFI_RUNTIME_SERVICES_DRIVER,
            EventType::EFI_PLATFORM_FIRMWARE_BLOB,
            EventType::EFI_PLATFORM_FIRMWARE_BLOB2,
            EventType::EFI_HCRTM_EVENT,
        ],
        1 => &[
            EventType::ACTION,
            EventType::EVENT_TAG,
            EventType::CPU_MICROCODE,
            EventType::PLATFORM_CONFIG_FLAGS,
            EventType::TABLE_OF_DEVICES,
            EventType::NONHOST_CONFIG,
            EventType::EFI_VARIABLE_DRIVER_CONFIG,
            EventType::EFI_VARIABLE_BOOT,
            EventType::EFI_ACTION,
            EventType::EFI_HANDOFF_TABLES,
            EventType::EFI_HANDOFF_TABLES2,
            EventType::EFI_VARIABLE_BOOT2,
        ],
        2 => &[
            EventType::ACTION,
            EventType::EVENT_TAG,
            EventType::NONHOST_CODE,
            EventType::NONHOST_INFO,
            EventType::EFI_BOOT_SERVICES_APPLICATION,
            EventType::EFI_BOOT_SERVICES_DRIVER,
            EventType::EFI_RUNTIME_SERVICES_DRIVER,
            EventType::EFI_ACTION,
            EventType::EFI_PLATFORM_FIRMWARE_BLOB,
            EventType::EFI_PLATFORM_FIRMWARE_BLOB2,
            EventType::EFI_SPDM_FIRMWARE_BLOB,
        ],
        3 => &[
            EventType::ACTION,
            EventType::EVENT_TAG,
            EventType::NONHOST_CONFIG,
            EventType::EFI_VARIABLE_DRIVER_CONFIG,
            EventType::EFI_ACTION,
            EventType::EFI_SPDM_FIRMWARE_CONFIG,
        ],
        4 => &[
            EventType::ACTION,
            EventType::EVENT_TAG,
            EventType::COMPACT_HASH,
            EventType::IPL,
            EventType::OMIT_BOOT_DEVICE_EVENTS,
            EventType::EFI_BOOT_SERVICES_APPLICATION,
            EventType::EFI_BOOT_SERVICES_DRIVER,
            EventType::EFI_RUNTIME_SERVICES_DRIVER,
            EventType::EFI_ACTION,
            EventType::EFI_PLATFORM_FIRMWARE_BLOB,
            EventType::EFI_PLATFORM_FIRMWARE_BLOB2,
        ],
        5 => &[
            EventType::ACTION,
            EventType::EVENT_TAG,
            EventType::COMPACT_HASH,
            EventType::IPL_PARTITION_DATA,
            EventType::EFI_VARIABLE_DRIVER_CONFIG,
            EventType::EFI_VARIABLE_BOOT,
            EventType::EFI_GPT_EVENT,
            EventType::EFI_ACTION,
            EventType::EFI_GPT_EVENT2,
        ],
        6 => &[
            EventType::ACTION,
            EventType::EVENT_TAG,
            EventType::COMPACT_HASH,
            EventType::EFI_ACTION,
        ],
        7 => &[
            EventType::EFI_VARIABLE_DRIVER_CONFIG,
            EventType::EFI_ACTION,
            EventType::EFI_VARIABLE_AUTHORITY,
            EventType::EFI_SPDM_DEVICE_POLICY,
            EventType::EFI_SPDM_DEVICE_AUTHORITY,
        ],
        _ => &[],
    }
}

/// Returns the types of the events that may follow the separator of a PCR of firmware: what is loaded
/// and measured once firmware begins to boot (TCG PC Client Platform Firmware Profile 1.06, 3.3.4).
pub fn types_after_separator(pcr: u32) -> &'static [EventType] {
    match pcr {
        1 => &[
            EventType::EFI_HANDOFF_TABLES,
            EventType::EFI_HANDOFF_TABLES2,
        ],
        2 => &[
            EventType::EFI_BOOT_SERVICES_DRIVER,
            EventType::EFI_RUNTIME_SERVICES_DRIVER,
        ],
        4 => &[
            EventType::OMIT_BOOT_DEVICE_EVENTS,
            EventType::EFI_BOOT_SERVICES_APPLICATION,
            EventType::EFI_BOOT_SERVICES_DRIVER,
            EventType::EFI_ACTION,
        ],
        5 => &[
            EventType::EVENT_TAG,
            EventType::EFI_VARIABLE_BOOT,
            EventType::EFI_GPT_EVENT,
            EventType::EFI_ACTION,
            EventType::EFI_GPT_EVENT2,
        ],
        7 => &[EventType::EFI_VARIABLE_AUTHORITY],
        _ => &[],
    }
}

/// Returns the types of the events that a BIOS measures as it boots, after the separators.
pub fn types_of_bios() -> &'static [EventType] {
    &[
        EventType::ACTION,
        EventType::IPL,
        EventType::IPL_PARTITION_DATA,
    ]
}
