// @generated from proved source. It is not edited.

//! The listing of a command over bytes in memory.

use crate::uefi_listing::command::Command;
use crate::uefi_listing::config::push_config_listing;
use crate::uefi_listing::info::push_info_listing;
use crate::uefi_listing::log1::push_log1_listing;
use crate::uefi_listing::log2::push_log2_listing;
use crate::uefi_listing::map::push_map_listing;
use crate::uefi_listing::path::push_path_listing;
use crate::uefi_listing::pci::push_pci_listing;
use crate::uefi_listing::time::push_time_listing;
use crate::support::alloc::AllocError;
use uefi_formats::proto::tcg::v2::Start;

/// Whether the bytes were what the command lists.
#[derive(Clone, Copy, PartialEq, Eq, Debug)]
pub enum Outcome {
    /// The listing has what the bytes hold.
    Listed,
    /// The listing is one line, which names the error that the bytes were refused with.
    Refused,
}

/// Makes the listing of the bytes in memory, and returns it with whether they were refused.
///
/// # Errors
///
/// [`AllocError`] if an allocation fails.
pub fn listing(
    command: &Command,
    bytes: &[u8],
) -> Result<(Vec<u8>, Outcome), AllocError> {
    let mut text = String::new();
    let outcome = push_listing(&mut text, command, bytes)?;
    Ok((text.into_bytes(), outcome))
}

/// Appends the listing of the bytes to a text.
fn push_listing(
    text: &mut String,
    command: &Command,
    bytes: &[u8],
) -> Result<Outcome, AllocError> {
    match command {
        Command::Path => push_path_listing(text, bytes),
        Command::Log1(last) => push_log1_listing(text, bytes, *last),
        Command::Log2(last) => push_log2_listing(text, bytes, *last, Start::AfterHeader),
        Command::Log2After(last) => push_log2_listing(text, bytes, *last, Start::AfterEvent),
        Command::Config => push_config_listing(text, bytes),
        Command::Map(stride) => push_map_listing(text, bytes, *stride),
        Command::Pci => push_pci_listing(text, bytes),
        Command::Time => push_time_listing(text, bytes),
        Command::Info(written) => push_info_listing(text, bytes, *written),
    }
}
