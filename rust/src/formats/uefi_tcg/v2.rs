// @generated from proved source. It is not edited.

//! Event logs of version 2 (TCG EFI Protocol Specification, family 2.0), with digests of several
//! algorithms, whose sizes the log's own header states.

#[cfg(feature = "alloc")]
pub use self::boxed::BoxedPcrEventInputs;
pub use self::capability::{BootServiceCapability, Version};
pub use self::digest_sizes::AlgorithmDigestSizes;
pub use self::digests::{PcrEventDigestIter, PcrEventDigests};
pub use self::event::PcrEvent;
pub use self::event_log_format::EventLogFormat;
pub use self::header::EventLogHeader;
pub use self::inputs::PcrEventInputs;
pub use self::log::{EventLog, Start};
pub use self::log_iter::EventLogIter;
// For the functions for C, or for tests: they compile these files too.
#[cfg(feature = "alloc")]
#[allow(unused_imports)] pub(crate) use self::one_event::event_starting_at;
pub use self::write::write_event_inputs;

mod boxed;
mod capability;
mod digest_sizes;
mod digests;
mod event;
mod event_log_format;
mod first_rows;
mod header;
mod inputs;
mod log;
mod log_iter;
mod one_event;
mod read;
mod write;
