// @generated from proved source. It is not edited.

//! The PCRs of a TPM that an event log of measured boot leads to.
//!
//! Begin with [`crate::formats::uefi_tcg::Log::read`], which takes a log's bytes and what is known of its last entry,
//! and with [`replay`], which returns what the 24 PCRs of a [`Bank`] hold: each a value, or the first
//! event by which it is undetermined. Whoever asks more of a log reads it once, as a [`ReadLog`], and
//! asks the calls of [`entries`].
//!
//! Only [`ReadLog::new`] allocates memory.

pub use self::bank::Bank;
pub use self::bank_pcrs::BankPcrs;
// For the functions for C, or for tests: they compile these files too.
#[allow(unused_imports)]
pub(crate) use self::bank_store::BankStore;
pub use self::digest::{has_digest, is_hash_of, is_hash_of_data};
pub use self::fault::{Fault, Undetermined};
pub use self::ignored::{Ignored, why_ignored};
pub use self::pcrs::{PCR_COUNT, Pcrs};
pub use self::quote::{NoQuoteDigest, is_quoted, quote_digest};
// For the functions for C, or for tests: they compile these files too.
#[allow(unused_imports)]
pub(crate) use self::quote::quote_digest_in;
#[cfg(feature = "alloc")]
pub use self::read_log::ReadLog;
pub use self::replaying::{has_measured, is_active, replay, replay_from};
// For the functions for C, or for tests: they compile these files too.
#[allow(unused_imports)]
pub(crate) use self::replaying::replay_into;
pub use self::start::{Start, locality_in, startup_locality, stated_locality};
pub use self::value::PcrValue;

mod bank;
mod bank_pcrs;
mod bank_store;
mod digest;
pub mod entries;
mod fault;
mod hasher;
mod ignored;
mod pcrs;
mod quote;
mod read_log;
mod replaying;
mod start;
mod value;
