// @generated from proved source. It is not edited.

//! The forms of nodes as text (UEFI 2.10, 10.6.1.6), in sections.
//!
//! Three texts are those of no form, and are written and read beside the table: a file's name, which
//! has no parentheses; the end of an instance, a comma; and the generic text of a node, in which any
//! node is written that no form has all of. Two kinds of forms are no list of arguments, each a part
//! of the data: words whose numbers one part is the sum of (`Part::Sum`), and arguments of which
//! there can be any number (`Arguments::Repeated`).

use crate::formats::uefi_path_text::form::NodeForm;

mod acpi;
mod bios_boot_spec;
mod display;
mod generic;
mod hardware;
mod media;
mod network;
mod storage;
mod usb;
mod vendor;

/// A section of the forms.
#[derive(Clone, Copy, Debug)]
pub(crate) enum Section {
    /// Nodes of any type.
    Generic,
    /// Nodes of the type HARDWARE.
    Hardware,
    /// Nodes of the type ACPI.
    Acpi,
    /// Nodes of the type MESSAGING that lead to storage.
    Storage,
    /// USB nodes.
    Usb,
    /// Nodes of networks and serial ports.
    Network,
    /// Nodes of vendors.
    Vendor,
    /// Nodes of the type MEDIA.
    Media,
    /// Nodes of the type BIOS_BOOT_SPEC.
    BiosBootSpec,
    /// Nodes that are for display alone.
    Display,
}

/// The sections of the forms in which nodes are read.
static SECTIONS: [Section; 9] = [
    Section::Generic,
    Section::Hardware,
    Section::Acpi,
    Section::Storage,
    Section::Usb,
    Section::Network,
    Section::Vendor,
    Section::Media,
    Section::BiosBootSpec,
];

/// Returns the sections of the forms in which nodes are read.
#[inline]
pub(crate) fn sections() -> &'static [Section] {
    &SECTIONS
}

impl Section {
    /// Returns the forms.
    #[inline]
    pub(crate) fn forms(self) -> &'static [NodeForm] {
        match self {
            Section::Generic => generic::forms(),
            Section::Hardware => hardware::forms(),
            Section::Acpi => acpi::forms(),
            Section::Storage => storage::forms(),
            Section::Usb => usb::forms(),
            Section::Network => network::forms(),
            Section::Vendor => vendor::forms(),
            Section::Media => media::forms(),
            Section::BiosBootSpec => bios_boot_spec::forms(),
            Section::Display => display::forms(),
        }
    }
}
