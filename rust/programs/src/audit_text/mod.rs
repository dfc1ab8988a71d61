// @generated from proved source. It is not edited.

//! What an audit of event logs of measured boot computed, as text and as JSON.
//!
//! Begin with a value that the crate `uefi_audits` computed. [`text`] appends the lines that a person
//! reads: PCRs, verdicts, differences, events and what was checked. [`json`] appends the same as lines
//! of JSON. [`words`] has what both share: how a name and the data of an event are shown.
//! [`ComparedLogs`] names two logs that are compared.
//!
//! A failed allocation is the only error of the calls that append lines.

pub use self::compared_logs::ComparedLogs;

mod compared_logs;
pub mod json;
mod parts;
pub mod text;
pub mod words;
