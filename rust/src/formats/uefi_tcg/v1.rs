// @generated from proved source. It is not edited.

//! Event logs of version 1 (TCG EFI Protocol Specification 1.22), with SHA-1 digests alone.

#[cfg(feature = "alloc")]
pub use self::boxed::BoxedPcrEvent;
pub use self::capability::{BootServiceCapability, Version};
pub(crate) use self::event::HEADER_LENGTH;
pub use self::event::PcrEvent;
pub use self::log::EventLog;
pub use self::log_iter::EventLogIter;
// For the functions for C, or for tests: they compile these files too.
#[cfg(feature = "alloc")]
#[allow(unused_imports)] pub(crate) use self::one_event::event_starting_at;
pub use self::write::write_event;

mod boxed;
mod capability;
mod event;
mod log;
mod log_iter;
mod one_event;
pub(crate) mod read;
mod write;

/// A SHA-1 digest.
pub type Sha1Digest = [u8; 20];
