//! Readers and writers of the record formats of UEFI firmware, over byte slices.
//!
//! | module | reads |
//! |---|---|
//! | [`proto::device_path`] | device paths, their nodes by type, and load options |
//! | [`proto::tcg`] | event logs of measured boot |
//! | [`proto::hii::config_str`] | HII configuration strings |
//! | [`proto::media::file`] | file information records |
//! | [`proto::pci`] | lists of PCI resources |
//! | [`mem::memory_map`] | memory maps |
//! | [`runtime`] | times |
//! | [`pcr`] | quotes of PCRs, which a TPM signs, and the PCRs that an event log leads to |
//!
//! Modules and names are those of the crate `uefi` 0.41.0. Nothing calls firmware, nothing trusts
//! the bytes, and there is no `unsafe` code. Views borrow the bytes that they were read from. What
//! allocates needs the feature `alloc`, which is on by default, and returns an error where memory
//! runs out.
//!
//! The Rust files are written from source that is proved; they aren't themselves proved. The
//! README says what is checked.
#![no_std]
#![forbid(unsafe_code)]
#![warn(missing_debug_implementations)]
// Docs link to calls that are there with `alloc` alone.
#![cfg_attr(not(feature = "alloc"), allow(rustdoc::broken_intra_doc_links))]
// The traits `FromStr` are implemented below, over these functions.
#![allow(clippy::should_implement_trait)]

#[cfg(feature = "alloc")]
extern crate alloc;

mod formats;
mod macros;
mod support;

/// What the macros expand to.
#[doc(hidden)]
pub mod __macros {
    pub use crate::macros::{cstr16, guid, unit_count, units};
}

pub use crate::formats::uefi_base::*;
pub use crate::support::alloc::AllocError;

/// A result whose error is an [`Error`] of UEFI.
pub type Result<Output = (), Data = ()> = core::result::Result<Output, Error<Data>>;

pub mod data_types {
    //! Texts, GUIDs and units in bytes.

    pub use crate::formats::uefi_base::*;
}

pub mod prelude {
    //! The names of `uefi::prelude` that this package has.

    pub use crate::{Status, cstr16, runtime};
}

pub mod proto {
    //! Formats that protocols of firmware hand out.

    pub mod device_path {
        //! Device paths (UEFI 2.10, chapter 10). Begin with [`DevicePath::try_from`], or with
        //! [`build::DevicePathBuilder`].
        //!
        //! # Examples
        //!
        //! [`DevicePathNode::as_enum`] returns a node as a value of its type. The partition that a path
        //! leads to:
        //!
        //! ```
        //! use uefi_formats::proto::device_path::{DevicePath, DevicePathNodeEnum, media::HardDrive};
        //!
        //! fn partition(path: DevicePath<'_>) -> Option<HardDrive> {
        //!     path.node_iter().find_map(|node| match node.as_enum() {
        //!         Ok(DevicePathNodeEnum::MediaHardDrive(drive)) => Some(drive),
        //!         _ => None,
        //!     })
        //! }
        //!
        //! let bytes = [0x02, 0x01, 12, 0, 0xd0, 0x41, 3, 0x0a, 0, 0, 0, 0, 0x7f, 0xff, 4, 0];
        //! assert_eq!(partition(DevicePath::try_from(&bytes[..]).unwrap()), None);
        //! ```

        // Without the trait of `as_enum`, which is a call of the node itself here.
        pub use crate::formats::uefi_node::{
            DevicePathNodeEnum, NodeConversionError, acpi, bios_boot_spec, end, hardware, media,
            messaging,
        };
        pub use crate::formats::uefi_path::*;

        pub mod build {
            //! Device paths that are built node by node. Begin with [`DevicePathBuilder::with_buf`].

            // Where `uefi` has the types of nodes to build: here they are those that are read.
            pub use crate::formats::uefi_node::{acpi, bios_boot_spec, end, hardware, messaging};
            pub use crate::formats::uefi_path::build::*;

            pub mod media {
                //! Nodes of the type MEDIA: parts of a medium (UEFI 2.10, 10.3.5). [`FilePath`] is built
                //! from a text.

                pub use crate::formats::uefi_node::media::{
                    CdRom, HardDrive, PartitionFormat, PartitionSignature, PiwgFirmwareFile,
                    PiwgFirmwareVolume, Protocol, RamDisk, RamDiskType, RelativeOffsetRange, Vendor,
                };
                pub use crate::support::file_path::FilePath;
            }
        }

        pub mod text {
            //! Device paths and nodes as text, and paths from text (UEFI 2.10, 10.6). Begin with
            //! [`to_text`] and with [`DevicePath::from_text`](super::DevicePath::from_text). `Display` of
            //! a path, an instance or a node writes the text with both flags false.
            //!
            //! # Examples
            //!
            //! ```
            //! use uefi_formats::proto::device_path::DevicePath;
            //! use uefi_formats::proto::device_path::text::{AllowShortcuts, DisplayOnly, to_text};
            //!
            //! let bytes = [0x02, 0x01, 12, 0, 0xd0, 0x41, 3, 0x0a, 0, 0, 0, 0, 0x7f, 0xff, 4, 0];
            //! let path = DevicePath::try_from(&bytes[..]).unwrap();
            //! let text = to_text(path, DisplayOnly(false), AllowShortcuts(false));
            //! assert_eq!(text.to_string(), "PciRoot(0x0)");
            //! ```
            //!
            //! The path of a text, in a buffer:
            //!
            //! ```
            //! use uefi_formats::proto::device_path::DevicePath;
            //! use uefi_formats::proto::device_path::text::FromTextError;
            //!
            //! let mut buffer = [0; 64];
            //! let path = DevicePath::from_text(&mut buffer, "PciRoot(0x0)/Pci(0x1F,0x0)").unwrap();
            //! let bytes = [2, 1, 12, 0, 0xd0, 0x41, 3, 0x0a, 0, 0, 0, 0, 1, 1, 6, 0, 0, 0x1f, 0x7f, 0xff, 4, 0];
            //! assert_eq!(path.as_bytes(), bytes);
            //!
            //! // No type of nodes has the name before byte 16.
            //! let path = DevicePath::from_text(&mut buffer, "PciRoot(0x0)/Pcj(0x1F,0x0)");
            //! assert_eq!(path, Err(FromTextError::UnknownNode(16)));
            //! ```

            #[cfg(feature = "alloc")]
            pub use crate::formats::uefi_path_text::from_text_in;
            pub use crate::formats::uefi_path_text::{
                AllowShortcuts, DisplayOnly, FromTextError, NodeText, PathText, from_text,
                instance_to_text, node_to_text, to_text, write_from_text,
            };
        }
    }

    pub mod tcg {
        //! Event logs of measured boot. Begin with [`Log::read`], which takes a log of either version.

        pub use crate::formats::uefi_tcg::*;

        pub mod content {
            //! What the data of an event say (TCG PC Client Platform Firmware Profile 1.06, 10).
            //!
            //! The type of an event says which structure its data are. A `read` returns the value whose
            //! encoding the bytes are, whole and alone, or `None` if they are that of none. Those of
            //! [`EventText`] and [`CrtmVersion`] also return bytes that are no text. [`TaggedEvents`]
            //! iterates over as many as there are. A value is a view: it borrows the bytes and allocates
            //! nothing. The data of an image and of a partition table have `UINTN`s, whose size the log's
            //! header states: their `read` takes a [`UintnSize`](super::UintnSize).
            //!
            //! | type of the event | data |
            //! |---|---|
            //! | `EV_EFI_VARIABLE_DRIVER_CONFIG`, `_BOOT`, `_BOOT2`, `_AUTHORITY` | [`VariableData`] |
            //! | `EV_EFI_BOOT_SERVICES_APPLICATION`, `_DRIVER` | [`ImageLoadEvent`] |
            //! | `EV_EFI_RUNTIME_SERVICES_DRIVER` | [`ImageLoadEvent`] |
            //! | `EV_EFI_GPT_EVENT` | [`GptData`] |
            //! | `EV_EFI_PLATFORM_FIRMWARE_BLOB`, `EV_POST_CODE` | [`PlatformFirmwareBlob`] |
            //! | `EV_EFI_PLATFORM_FIRMWARE_BLOB2`, `EV_POST_CODE2` | [`PlatformFirmwareBlob2`] |
            //! | `EV_S_CRTM_VERSION` | [`CrtmVersion`] |
            //! | `EV_EVENT_TAG` | [`TaggedEvents`] |
            //! | `EV_IPL` | [`EventText`] |
            //!
            //! The data of an `EV_POST_CODE` may be a text as well. The event that a version 2 log begins
            //! with has a header, which [`EventLogHeader::read`](super::v2::EventLogHeader::read) returns.
            //!
            //! The value of a variable may be a [`BootOrder`] (`BootOrder`), [`SignatureLists`] (`db`,
            //! `dbx`, `KEK`, `PK`) or, in an event of type `EV_EFI_VARIABLE_AUTHORITY`, a
            //! [`SignatureData`]. Shim logs variables of its own, such as `SbatLevel`, by events of that
            //! type: their values are texts or signature lists.

            pub use crate::formats::tcg_event::*;
        }
    }

    pub mod hii {
        //! The human interface infrastructure.

        pub mod config_str {
            //! Configuration strings (UEFI 2.10, 35.2.1).
            #![cfg_attr(feature = "alloc", doc = "Begin with [`ConfigurationString::from_str`].")]

            pub use crate::formats::uefi_hii::*;
        }
    }

    pub mod media {
        //! Media.

        pub mod file {
            //! Records of files and file systems (UEFI 2.10, 13.5). Begin with [`FileInfo::from_uefi`].

            pub use crate::formats::uefi_records::{
                FileAttribute, FileInfo, FileInfoCreationError, FileProtocolInfo, FileSystemInfo,
                FileSystemVolumeLabel, write_file_info, write_file_system_info,
                write_file_system_volume_label,
            };
        }
    }

    pub mod pci {
        //! Lists of PCI resources (UEFI 2.10, 14.2). Begin with [`ResourceList::try_from`].

        #[cfg(feature = "alloc")]
        pub use crate::formats::uefi_map::parse;
        pub use crate::formats::uefi_map::{
            QwordAddressSpaceDescriptor, ResourceError, ResourceIter, ResourceList,
            ResourceRangeType,
        };

        pub mod configuration {
            //! The same names, where `uefi` has them.

            pub use super::*;
        }
    }
}

pub mod mem {
    //! Memory.

    pub mod memory_map {
        //! Memory maps (UEFI 2.10, 7.2). Begin with [`MemoryMapRef::new`].

        #[cfg(feature = "alloc")]
        pub use crate::formats::uefi_map::MemoryMapOwned;
        pub use crate::formats::uefi_map::{
            MemoryAttribute, MemoryDescriptor, MemoryMap, MemoryMapError, MemoryMapIter,
            MemoryMapKey, MemoryMapMeta, MemoryMapMut, MemoryMapRef, MemoryMapRefMut, MemoryType,
        };
    }
}

pub mod pcr {
    //! The PCRs of a TPM that an event log leads to, and quotes of PCRs, which a TPM signs (TPM 2.0
    //! Library, Part 2, `TPMS_ATTEST`). Begin with [`replay`] and with [`Quote::try_from`].
    //!
    //! # Examples
    //!
    //! Whether a quote is over the PCRs that a log leads to, and has this nonce, which shows that it
    //! is fresh. The message is what the TPM signed: its signature has to be verified first.
    //!
    //! ```
    //! use uefi_formats::pcr::{Bank, BankPcrs, Quote, is_active, quote_digest, replay};
    //! use uefi_formats::proto::tcg::{LastEntry, Log};
    //!
    //! fn agrees(message: &[u8], nonce: &[u8], log: &[u8]) -> Result<bool, Box<dyn std::error::Error>> {
    //!     let quote = Quote::try_from(message)?;
    //!     let log = Log::read(log, LastEntry::Unknown)?;
    //!     let banks: Vec<BankPcrs> = Bank::ALL
    //!         .into_iter()
    //!         .filter(|bank| is_active(&log, *bank))
    //!         .map(|bank| BankPcrs { bank, pcrs: replay(&log, bank) })
    //!         .collect();
    //!     let hash = Bank::of_size(quote.pcr_digest().len()).ok_or("no bank has this size")?;
    //!     // A PCR agrees with no quote if its bank isn't in the log, or if it is undetermined.
    //!     let digest = quote_digest(hash, &quote, &banks);
    //!     Ok(quote.extra_data() == nonce && digest.is_ok_and(|it| it.as_bytes() == quote.pcr_digest()))
    //! }
    //!
    //! assert!(agrees(b"\xffTCG", b"nonce", &[]).is_err());
    //! ```
    //!
    //! A signer whose hash is SM3 has digests of 32 bytes too: there `hash` is [`Bank::Sm3`].

    #[cfg(feature = "alloc")]
    pub use crate::formats::pcr_replay::ReadLog;
    pub use crate::formats::pcr_replay::{
        Bank, BankPcrs, Fault, Ignored, NoQuoteDigest, PCR_COUNT, PcrValue, Pcrs, Start,
        Undetermined, entries, has_digest, has_measured, is_active, is_hash_of, is_hash_of_data,
        is_quoted, locality_in, quote_digest, replay, replay_from, startup_locality,
        stated_locality, why_ignored,
    };
    pub use crate::formats::tpm_quote::{
        ClockInfo, PcrSelection, PcrSelectionIter, Quote, QuoteError, SelectedPcrs,
    };
}

pub mod runtime {
    //! Times (UEFI 2.10, 8.3). Begin with [`Time::try_from`] or [`Time::new`].

    pub use crate::formats::uefi_records::{
        Daylight, Time, TimeByteConversionError, TimeError, TimeParams,
    };
}

mod as_enum {
    use crate::formats::uefi_node::DevicePathNodeExt;
    use crate::proto::device_path::{DevicePathNode, DevicePathNodeEnum, NodeConversionError};

    impl<'a> DevicePathNode<'a> {
        /// Returns the value that the node is, of the type that its type and subtype state.
        ///
        /// # Errors
        ///
        /// - [`NodeConversionError::UnsupportedType`] if and only if UEFI 2.10 has no node of this
        ///   type and subtype.
        /// - [`NodeConversionError::Length`] if the data have another length than the type has.
        /// - [`NodeConversionError::Form`] if they have the length, and not the form of the type.
        #[inline]
        pub fn as_enum(&self) -> Result<DevicePathNodeEnum<'a>, NodeConversionError> {
            DevicePathNodeExt::as_enum(self)
        }
    }

    /// As [`DevicePathNode::as_enum`].
    impl<'a> TryFrom<DevicePathNode<'a>> for DevicePathNodeEnum<'a> {
        type Error = NodeConversionError;

        fn try_from(node: DevicePathNode<'a>) -> Result<DevicePathNodeEnum<'a>, NodeConversionError> {
            node.as_enum()
        }
    }
}

#[cfg(feature = "alloc")]
mod default {
    use crate::proto::device_path::build::DevicePathVecBuilder;

    /// A builder without a node.
    impl Default for DevicePathVecBuilder {
        fn default() -> DevicePathVecBuilder {
            DevicePathVecBuilder::new()
        }
    }
}

mod status {
    use crate::{Error, Status};

    /// The error with this status, without data.
    impl From<Status> for Error<()> {
        fn from(status: Status) -> Error<()> {
            Error::new(status, ())
        }
    }
}

mod from_text {
    use crate::proto::device_path::DevicePath;
    use crate::proto::device_path::text::{self, FromTextError};

    impl<'a> DevicePath<'a> {
        /// Reads the text of a path, such as `PciRoot(0x0)/Pci(0x2,0x0)`, and writes the path to the
        /// start of a buffer (UEFI 2.10, 10.6.1). It does what [`from_text`](text::from_text) does.
        ///
        /// # Errors
        ///
        /// Fails with the first of these errors that applies, and leaves every byte of the buffer
        /// unchanged:
        ///
        /// - [`FromTextError::UnknownNode`], [`FromTextError::Argument`], [`FromTextError::Missing`] or
        ///   [`FromTextError::TooLong`] if the text is that of no path.
        /// - [`FromTextError::Buffer`] with the length of the path if the buffer is shorter.
        #[inline]
        pub fn from_text(buffer: &'a mut [u8], text: &str) -> Result<DevicePath<'a>, FromTextError> {
            text::from_text(buffer, text)
        }
    }
}

#[cfg(feature = "alloc")]
mod from_str {
    use crate::proto::device_path::BoxedDevicePath;
    use crate::proto::device_path::text::{FromTextError, from_text_in};
    use crate::proto::hii::config_str::{ConfigurationString, ParseError};
    use crate::{CString16, FromStrError};
    use core::str::FromStr;

    impl FromStr for CString16 {
        type Err = FromStrError;

        fn from_str(text: &str) -> Result<CString16, FromStrError> {
            CString16::from_str(text)
        }
    }

    impl TryFrom<&str> for CString16 {
        type Error = FromStrError;

        fn try_from(text: &str) -> Result<CString16, FromStrError> {
            CString16::from_str(text)
        }
    }

    /// As [`from_text_in`].
    impl FromStr for BoxedDevicePath {
        type Err = FromTextError;

        fn from_str(text: &str) -> Result<BoxedDevicePath, FromTextError> {
            from_text_in(text)
        }
    }

    impl FromStr for ConfigurationString {
        type Err = ParseError;

        fn from_str(text: &str) -> Result<ConfigurationString, ParseError> {
            ConfigurationString::from_str(text)
        }
    }
}

mod equality {
    use crate::CStr16;
    #[cfg(feature = "alloc")]
    use crate::CString16;

    /// Equality of all characters.
    impl PartialEq<&str> for CStr16<'_> {
        fn eq(&self, text: &&str) -> bool {
            !text.contains('\0') && self.eq_str_until_nul(text)
        }
    }

    /// Equality of all characters.
    #[cfg(feature = "alloc")]
    impl PartialEq<&str> for CString16 {
        fn eq(&self, text: &&str) -> bool {
            self.as_cstr16() == *text
        }
    }

    #[cfg(feature = "alloc")]
    impl PartialEq<CStr16<'_>> for CString16 {
        fn eq(&self, other: &CStr16<'_>) -> bool {
            self.as_cstr16() == *other
        }
    }

    #[cfg(feature = "alloc")]
    impl PartialEq<CString16> for CStr16<'_> {
        fn eq(&self, other: &CString16) -> bool {
            *self == other.as_cstr16()
        }
    }
}
