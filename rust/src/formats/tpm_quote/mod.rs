// @generated from proved source. It is not edited.

//! Quotes of a TPM, read from the bytes that it signs (TPM 2.0 Library, Part 2).
//!
//! A TPM quotes PCRs: it signs which PCRs it was asked for, a digest of their values, and a nonce,
//! by which the verifier knows that the quote is fresh.
//!
//! Begin with [`Quote::try_from`]: it returns the quote that the bytes are, whole and alone, or the
//! first fault by which they are none. [`Quote::extra_data`] is the nonce,
//! [`Quote::pcr_selections`] iterates over the PCRs of each bank, and [`Quote::pcr_digest`] is the
//! digest. Each is a view that lives as long as the bytes; nothing is copied or allocated.
//!
//! The signature isn't part of these bytes, and nothing here verifies one or computes a digest.

pub use self::clock_info::ClockInfo;
pub use self::pcr_selection::PcrSelection;
pub use self::pcr_selection_iter::PcrSelectionIter;
pub use self::quote::Quote;
pub use self::quote_error::QuoteError;
pub use self::selected_pcrs::SelectedPcrs;

mod big_endian;
mod clock_info;
mod pcr_selection;
mod pcr_selection_iter;
mod quote;
mod quote_error;
mod selected_pcrs;
