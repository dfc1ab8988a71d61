// @generated from proved source. It is not edited.

use core::mem::MaybeUninit;
use crate::bytes::Bytes;

use crate::formats::uefi_c::status::{self, UefiStatus};
use crate::formats::tpm_quote::{PcrSelection, Quote, QuoteError};
use crate::formats::uefi_tcg::PcrIndex;

/// How many PCRs a PC has.
const PCR_COUNT: u32 = 24;

/// What a TPM signs when it quotes PCRs (TPM 2.0 Library, Part 2, `TPMS_ATTEST` with
/// `TPMS_QUOTE_INFO`), without the selections.
#[derive(Clone, Copy, Debug)]
#[repr(C)]
pub struct UefiQuote<'a> {
    /// The qualified name of the key that signs.
    pub qualified_signer: Bytes<'a>,
    /// The data that the caller of the TPM gave: the nonce.
    pub extra_data: Bytes<'a>,
    /// The digest of the values of the selected PCRs.
    pub pcr_digest: Bytes<'a>,
    /// The milliseconds that the clock counted.
    pub clock: u64,
    /// The version of the TPM's firmware.
    pub firmware_version: u64,
    /// How often the TPM was reset since it was last cleared.
    pub reset_count: u32,
    /// How often the TPM was restarted or resumed since it was last reset or cleared.
    pub restart_count: u32,
    /// Whether the TPM never reported a greater value of the clock.
    pub safe: bool,
}

/// The PCRs of one bank that a quote is over (TPM 2.0 Library, Part 2, `TPMS_PCR_SELECTION`).
#[derive(Clone, Copy, Debug)]
#[repr(C)]
pub struct UefiPcrSelection {
    /// The PCRs: bit n is PCR n.
    pub pcrs: u32,
    /// The hash algorithm of the bank.
    pub algorithm: u16,
}

/// Reads the quote that the bytes are, whole and alone. If they are none, it returns why: the first
/// fault, where they are read from the first to the last.
#[unsafe(no_mangle)]
pub extern "C" fn uefi_quote<'a>(message: Bytes<'a>, out: &mut MaybeUninit<UefiQuote<'a>>) -> UefiStatus {
    let message = message.as_slice();
    match Quote::try_from(message) {
        Ok(quote) => {
            out.write(seen(&quote));
            status::OK
        }
        Err(error) => status_of(&error),
    }
}

/// Reads the selection of this index, and moves the index to the next. It goes over all selections.
/// If the bytes are no quote, it returns why, as [`uefi_quote`].
#[unsafe(no_mangle)]
pub extern "C" fn uefi_quote_next_selection(
    message: Bytes<'_>,
    cursor: &mut usize,
    out: &mut MaybeUninit<UefiPcrSelection>,
) -> UefiStatus {
    let message = message.as_slice();
    let Some(selection) = selection_at(message, *cursor) else {
        return match Quote::try_from(message) {
            Ok(_quote) => status::END,
            Err(error) => status_of(&error),
        };
    };
    out.write(UefiPcrSelection {
        pcrs: set_of(&selection),
        algorithm: selection.algorithm().0,
    });
    *cursor += 1;
    status::OK
}

/// Returns the fields of a quote.
#[inline]
fn seen<'a>(quote: &Quote<'a>) -> UefiQuote<'a> {
    let clock_info = quote.clock_info();
    UefiQuote {
        qualified_signer: Bytes::new(quote.qualified_signer()),
        extra_data: Bytes::new(quote.extra_data()),
        pcr_digest: Bytes::new(quote.pcr_digest()),
        clock: clock_info.clock,
        firmware_version: quote.firmware_version(),
        reset_count: clock_info.reset_count,
        restart_count: clock_info.restart_count,
        safe: clock_info.safe,
    }
}

/// Returns the status of a fault.
#[inline]
pub(crate) fn status_of(error: &QuoteError) -> UefiStatus {
    match error {
        QuoteError::NotGenerated => status::NOT_GENERATED,
        QuoteError::NotQuote(_) => status::NOT_QUOTE,
        QuoteError::Safe(_) => status::BAD_SAFE,
        QuoteError::Selection => status::BAD_SELECTION,
        QuoteError::TooShort => status::TOO_SHORT,
        QuoteError::LeftOver => status::LEFT_OVER,
    }
}

/// Returns the selection of an index in the quote that the bytes are.
#[inline]
fn selection_at(message: &[u8], index: usize) -> Option<PcrSelection<'_>> {
    let Ok(quote) = Quote::try_from(message) else {
        return None;
    };
    quote.pcr_selections().nth(index)
}

/// Returns the PCRs of a selection as a set.
#[inline]
fn set_of(selection: &PcrSelection<'_>) -> u32 {
    let mut set = 0;
    for pcr in 0..PCR_COUNT {
        if selection.contains(PcrIndex(pcr)) {
            set += 1 << pcr;
        }
    }
    set
}
