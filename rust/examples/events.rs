//! Prints the events of a boot log with their PCRs, types and variables: `events FILE`, on Linux
//! over `/sys/kernel/security/tpm0/binary_bios_measurements`.

use uefi_formats::proto::device_path::LoadOption;
use uefi_formats::proto::device_path::text::{AllowShortcuts, DisplayOnly, to_text};
use uefi_formats::proto::tcg::content::VariableData;
use uefi_formats::proto::tcg::{EventType, LastEntry, Log};

/// Returns the variable of an event and, if its value is a boot option, what that says.
fn variable_text(event_type: EventType, data: &[u8]) -> Option<String> {
    use EventType as Type;
    let (Type::EFI_VARIABLE_DRIVER_CONFIG
    | Type::EFI_VARIABLE_BOOT
    | Type::EFI_VARIABLE_BOOT2
    | Type::EFI_VARIABLE_AUTHORITY) = event_type
    else {
        return None;
    };
    let variable = VariableData::read(data)?;
    let mut text = format!("{} {}", variable.guid, variable.name);
    if let Ok(option) = LoadOption::try_from(variable.data) {
        let path = to_text(option.file_path(), DisplayOnly(false), AllowShortcuts(false));
        text += &format!(" {}: {path}", option.description());
    }
    Some(text)
}

fn main() -> Result<(), Box<dyn std::error::Error>> {
    let file = std::env::args_os().nth(1).ok_or("usage: events FILE")?;
    let bytes = std::fs::read(file)?;
    // A log that is cut or broken is an error.
    let log = Log::read(&bytes, LastEntry::Unknown)?;
    for event in log.entries().map(|entry| entry.event) {
        let (pcr, event_type) = (event.pcr_index().0, event.event_type());
        let name = event_type.name().map_or_else(|| format!("{event_type:?}"), String::from);
        let text = variable_text(event_type, event.event_data()).unwrap_or_default();
        println!("{}", format!("{pcr:>2} {name} {text}").trim_end());
    }
    Ok(())
}
