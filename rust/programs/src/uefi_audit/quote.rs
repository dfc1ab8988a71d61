// @generated from proved source. It is not edited.

use crate::uefi_audit::failure::Status;
use crate::uefi_audit::request::AskedQuote;
use crate::audit_text::json::NotJudged;
use uefi_formats::pcr::Bank;
use core::fmt;
use uefi_formats::pcr::{Quote, QuoteError};
use crate::uefi_audits::verify::ReceivedQuote;

/// Why a log isn't compared with the bytes of a file.
#[derive(Clone, Copy, Debug)]
pub(crate) enum NotReceived {
    /// They aren't a quote.
    Malformed(QuoteError),
    /// It isn't stated which nonce the quote was asked for with, nor that it may have any.
    NoNonce,
    /// No hash function is named, and none here has digests of so many bytes.
    NoHash(usize),
}

impl NotReceived {
    /// Returns the status that follows.
    pub(crate) fn status(self) -> Status {
        match self {
            NotReceived::Malformed(_) => Status::Unread,
            NotReceived::NoNonce | NotReceived::NoHash(_) => Status::Unjudged,
        }
    }

    /// Returns the reason that is printed in JSON.
    pub(crate) fn reason(self) -> NotJudged {
        match self {
            NotReceived::Malformed(_) => NotJudged::MalformedQuote,
            NotReceived::NoNonce => NotJudged::NoNonce,
            NotReceived::NoHash(_) => NotJudged::UnknownHash,
        }
    }
}

/// Writes what is wrong, for standard error.
impl fmt::Display for NotReceived {
    fn fmt(&self, f: &mut fmt::Formatter<'_>) -> fmt::Result {
        match self {
            NotReceived::Malformed(error) => write!(f, "{error}"),
            NotReceived::NoNonce => {
                f.write_str("the nonce isn't stated (--nonce, or --any-nonce)")
            }
            NotReceived::NoHash(size) => write!(
                f,
                "no hash function here has digests of {size} bytes (--quote-hash)"
            ),
        }
    }
}

/// Returns the quote that the bytes of a file are, with the nonce that it was asked for with.
///
/// # Errors
///
/// - [`Malformed`](NotReceived::Malformed) if they are no quote.
/// - [`NoNonce`](NotReceived::NoNonce) if there is no nonce, and not any will do.
/// - [`NoHash`](NotReceived::NoHash) if the hash function of its digest isn't known.
pub(crate) fn received_quote<'a>(
    bytes: &'a [u8],
    asked: &AskedQuote<'_>,
    nonce: Option<&'a [u8]>,
) -> Result<ReceivedQuote<'a>, NotReceived> {
    let quote = match Quote::try_from(bytes) {
        Ok(quote) => quote,
        Err(error) => return Err(NotReceived::Malformed(error)),
    };
    if nonce.is_none() && !asked.any_nonce {
        return Err(NotReceived::NoNonce);
    }
    let size = quote.pcr_digest().len();
    match hash_by(asked.hash, size) {
        Some(hash) => Ok(ReceivedQuote { quote, hash, nonce }),
        None => Err(NotReceived::NoHash(size)),
    }
}

/// Returns the hash function of a digest: the one that is named, or else that of its length.
fn hash_by(named: Option<Bank>, size: usize) -> Option<Bank> {
    match named {
        Some(hash) => Some(hash),
        None => Bank::of_size(size),
    }
}
