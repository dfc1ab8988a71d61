// @generated from proved source. It is not edited.

use uefi_formats::proto::tcg::EventType;

/// What an event measures, by its data.
#[derive(Clone, Copy, PartialEq, Eq, Debug)]
pub enum Form {
    /// All of its data.
    Data,
    /// The value of the variable that its data are.
    VariableValue,
    /// Its data without their closing NUL.
    WithoutNul,
    /// Its data and a NUL.
    WithNul,
    /// The command in its data, which GRUB writes as `grub_cmd: ..` or `kernel_cmdline: ..`.
    Command,
    /// The bytes whose units, of UTF-16, its data are.
    Narrowed,
}

/// Returns the forms of what events of a type measure, in the order in which they are tried; none
/// if the log doesn't have what they measure (TCG PC Client Platform Firmware Profile 1.06,
/// 10.4.1).
pub fn forms_of(event_type: EventType) -> &'static [Form] {
    if may_describe(event_type) {
        return &[Form::Data];
    }
    match event_type {
        EventType::SEPARATOR
        | EventType::ACTION
        | EventType::CRTM_VERSION
        | EventType::OMIT_BOOT_DEVICE_EVENTS
        | EventType::EFI_VARIABLE_DRIVER_CONFIG
        | EventType::EFI_GPT_EVENT
        | EventType::EFI_ACTION
        | EventType::EFI_VARIABLE_AUTHORITY => &[Form::Data],
        EventType::EFI_VARIABLE_BOOT | EventType::EFI_VARIABLE_BOOT2 => {
            &[Form::VariableValue, Form::Data]
        }
        EventType::IPL => &[
            Form::Data,
            Form::WithoutNul,
            Form::WithNul,
            Form::Command,
            Form::Narrowed,
        ],
        _ => &[],
    }
}

/// Returns whether events of a type measure their data, or what these describe: their data are
/// tagged, or firmware chooses them.
pub(crate) fn may_describe(event_type: EventType) -> bool {
    matches!(
        event_type,
        EventType::EVENT_TAG
            | EventType::PLATFORM_CONFIG_FLAGS
            | EventType::TABLE_OF_DEVICES
            | EventType::EFI_GPT_EVENT2
            | EventType::EFI_SPDM_FIRMWARE_BLOB
            | EventType::EFI_SPDM_FIRMWARE_CONFIG
            | EventType::EFI_SPDM_DEVICE_POLICY
            | EventType::EFI_SPDM_DEVICE_AUTHORITY
    )
}

impl Form {
    /// Each form.
    pub const ALL: [Form; 6] = [
        Form::Data,
        Form::VariableValue,
        Form::WithoutNul,
        Form::WithNul,
        Form::Command,
        Form::Narrowed,
    ];

    /// Returns the form's index in [`Form::ALL`].
    pub fn index(self) -> usize {
        match self {
            Form::Data => 0,
            Form::VariableValue => 1,
            Form::WithoutNul => 2,
            Form::WithNul => 3,
            Form::Command => 4,
            Form::Narrowed => 5,
        }
    }
}
