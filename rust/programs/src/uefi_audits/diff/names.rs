// @generated from proved source. It is not edited.

use crate::uefi_audits::check::are_hashes;
use crate::uefi_audits::content::EventContent;
use crate::uefi_audits::diff::pcr::NumberedEntry;
use crate::uefi_audits::verify::splitting::split_once;
use uefi_formats::proto::tcg::content::VariableData;

/// The name that the data of an event have.
#[derive(Clone, Copy, PartialEq, Eq, Debug)]
pub struct EventName<'a> {
    /// In what the name is one: the GUID of a variable, or the word that GRUB writes before a
    /// command or a command line, as `grub_cmd`; empty for other data.
    pub namespace: &'a [u8],
    /// The bytes of the name; empty if the data have none.
    pub name: &'a [u8],
}

impl<'a> EventName<'a> {
    /// Returns a name in a namespace.
    pub(super) fn new(namespace: &'a [u8], name: &'a [u8]) -> EventName<'a> {
        EventName { namespace, name }
    }
}

/// How many bytes the GUID of a variable has, with which its data begin.
const GUID_LENGTH: usize = 16;

/// Where the name of a variable starts in the data.
const NAME_OFFSET: usize = 32;

/// How many bytes the number of a tag has, with which tagged data begin.
const TAG_LENGTH: usize = 4;

/// Returns the name that data have, and its namespace: of a variable its name and its GUID, of an
/// image its device path, of a command its first word and the word that GRUB writes before it, of
/// tagged data the number of the first tag. Other data have none.
pub(crate) fn name_in<'a>(content: &EventContent<'a>, bytes: &'a [u8]) -> EventName<'a> {
    match content {
        EventContent::Variable(variable)
        | EventContent::BootOption(variable, _)
        | EventContent::BootOrder(variable, _)
        | EventContent::SignatureLists(variable, _)
        | EventContent::Signature(variable, _) => variable_name(variable, bytes),
        EventContent::Image(image, _) => EventName::new(&[], image.device_path),
        EventContent::LoaderText(_) => command_name(bytes),
        EventContent::Tagged(_) => EventName::new(&[], first_bytes(bytes, TAG_LENGTH)),
        _ => EventName::new(&[], &[]),
    }
}

/// Returns whether an event's digests are the hash of a variable's value alone, so that no digest
/// covers the variable's name.
pub fn has_uncovered_name(found: &NumberedEntry<'_>) -> bool {
    match &found.content {
        EventContent::Variable(variable)
        | EventContent::BootOption(variable, _)
        | EventContent::BootOrder(variable, _)
        | EventContent::SignatureLists(variable, _)
        | EventContent::Signature(variable, _) => {
            are_hashes(&found.entry.event, &[], variable.data)
        }
        _ => false,
    }
}

/// Returns the GUID of a variable, and the bytes of its name, which its value follows.
fn variable_name<'a>(variable: &VariableData<'_>, bytes: &'a [u8]) -> EventName<'a> {
    let rest = bytes_after(bytes, NAME_OFFSET);
    let length = rest.len().saturating_sub(variable.data.len());
    EventName::new(first_bytes(bytes, GUID_LENGTH), first_bytes(rest, length))
}

/// Returns the first bytes, or all if there are fewer.
fn first_bytes(bytes: &[u8], count: usize) -> &[u8] {
    bytes.split_at(count.min(bytes.len())).0
}

/// Returns the bytes after these many; none if there are fewer.
fn bytes_after(bytes: &[u8], count: usize) -> &[u8] {
    bytes.split_at(count.min(bytes.len())).1
}

/// Returns the name of what GRUB measured: of a command its first word, of the command line of a
/// kernel or of a module none, each in the namespace of the word that GRUB writes before it. Other
/// texts have neither.
pub fn command_name(bytes: &[u8]) -> EventName<'_> {
    if bytes.starts_with(b"grub_cmd: ") {
        let command = bytes_after(bytes, b"grub_cmd: ".len());
        return EventName::new(b"grub_cmd", before(before(command, 0), b' '));
    }
    if bytes.starts_with(b"kernel_cmdline: ") {
        return EventName::new(b"kernel_cmdline", &[]);
    }
    if bytes.starts_with(b"module_cmdline: ") {
        return EventName::new(b"module_cmdline", &[]);
    }
    EventName::new(&[], &[])
}

/// Returns the bytes before the first one of a value; all if there is none.
fn before(bytes: &[u8], value: u8) -> &[u8] {
    match split_once(bytes, value) {
        Some((prefix, _)) => prefix,
        None => bytes,
    }
}
