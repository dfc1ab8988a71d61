// @generated from proved source. It is not edited.

use crate::formats::uefi_base::{Align, Identify};

/// A record of the file protocol: it has an alignment, and a GUID identifies its type (UEFI 2.10,
/// 13.5 `EFI_FILE_PROTOCOL.GetInfo()`).
pub trait FileProtocolInfo: Align + Identify {}
