// @generated from proved source. It is not edited.

use crate::support::fallible::*;

use crate::uefi_audits::known_start::KnownStart;
use crate::uefi_audits::replay::{replay_banks, restart_banks};
use crate::uefi_audits::verify::covered::is_covered;
use uefi_formats::pcr::entries::is_active;
use uefi_formats::pcr::{Bank, BankPcrs, NoQuoteDigest, PcrValue, Start, is_quoted, quote_digest};
use crate::support::alloc::AllocError;
use uefi_formats::pcr::Quote;
use uefi_formats::proto::tcg::LogEntry;

/// A quote, and what is known of it beside its bytes.
#[derive(Clone, Copy, Debug)]
pub struct ReceivedQuote<'a> {
    /// The quote.
    pub quote: Quote<'a>,
    /// The hash function of its digest.
    pub hash: Bank,
    /// The nonce that it was asked for with; `None` if it may have any.
    pub nonce: Option<&'a [u8]>,
}

impl<'a> ReceivedQuote<'a> {
    /// Returns whether the quote has the nonce that it was asked for with: another one is that of
    /// an older quote, or of one that somebody else asked for.
    pub fn has_its_nonce(&self) -> bool {
        match self.nonce {
            Some(nonce) => self.quote.extra_data() == nonce,
            None => true,
        }
    }
}

/// Whether a log leads to the digest in a quote.
///
/// That digest may be of any PCRs: also of none, of those that the machine can reset, or of a bank that
/// firmware doesn't extend. And a quote may be old. So the caller has to ask
/// [`covers`](QuoteVerdict::covers) for the PCRs that matter, in a bank that the caller chooses, and has
/// to state the nonce in [`ReceivedQuote::nonce`].
#[derive(Clone, Copy, Debug)]
pub struct QuoteVerdict<'a> {
    /// The quote.
    pub received: ReceivedQuote<'a>,
    /// How PCR 0 starts.
    pub start: KnownStart,
    /// The digest of the PCRs that the log leads to, or why it leads to none.
    pub digest: Result<PcrValue, NoQuoteDigest>,
    /// Whether it is the digest in the quote.
    pub digest_agrees: bool,
}

impl<'a> QuoteVerdict<'a> {
    /// Returns the verdict on a quote, after these events.
    ///
    /// PCR 0 starts at `locality`, or without one as the events say. If they say nothing, it starts at
    /// 0, 3 or 4: the first one at which the digests agree, or at 0 if they agree at none.
    ///
    /// # Errors
    ///
    /// [`AllocError`] if an allocation fails.
    pub fn new(
        entries: &[LogEntry<'_>],
        received: &ReceivedQuote<'a>,
        locality: Option<u8>,
    ) -> Result<QuoteVerdict<'a>, AllocError> {
        let start = KnownStart::of(entries, locality);
        if start.is_stated {
            let replays = quoted_replays(entries, &received.quote, &start.start)?;
            return Ok(QuoteVerdict::of(received, replays.as_slice(), start));
        }
        let start = KnownStart::assumed(0);
        let replays = quoted_replays(entries, &received.quote, &start.start)?;
        let replays = replays.as_slice();
        let at_0 = QuoteVerdict::of(received, replays, start);
        let (at_3, at_4) = (KnownStart::assumed(3), KnownStart::assumed(4));
        let at_3 = QuoteVerdict::restarted(entries, received, replays, at_3)?;
        let at_4 = QuoteVerdict::restarted(entries, received, replays, at_4)?;
        Ok(at_0.or(at_3).or(at_4))
    }

    /// Returns whether the digests agree, and the quote has the nonce that it was asked for with. Any
    /// nonce will do, if the received quote states none. Of which PCRs the digest is,
    /// [`covers`](QuoteVerdict::covers) says.
    pub fn agrees(&self) -> bool {
        self.digest_agrees && self.received.has_its_nonce()
    }

    /// Returns whether the quote covers each of these PCRs of a bank: a selection of it is of the bank's
    /// algorithm, and selects the PCR. It covers all of none.
    pub fn covers(&self, bank: Bank, pcrs: &[u32]) -> bool {
        let quote = &self.received.quote;
        pcrs.iter().all(|pcr| is_covered(quote, bank, *pcr))
    }

    /// Returns the verdict in a TPM that was started so, by what the banks hold in one that was started
    /// otherwise: PCR 0 alone is replayed.
    fn restarted(
        entries: &[LogEntry<'_>],
        received: &ReceivedQuote<'a>,
        replays: &[BankPcrs],
        start: KnownStart,
    ) -> Result<QuoteVerdict<'a>, AllocError> {
        let replays = restart_banks(entries, replays, &start.start)?;
        Ok(QuoteVerdict::of(received, replays.as_slice(), start))
    }

    /// Returns the verdict on a quote, beside the PCRs that a log leads to.
    fn of(received: &ReceivedQuote<'a>, replays: &[BankPcrs], start: KnownStart) -> QuoteVerdict<'a> {
        let digest = quote_digest(received.hash, &received.quote, replays);
        let digest_agrees = is_digest(received.quote.pcr_digest(), &digest);
        QuoteVerdict {
            received: *received,
            start,
            digest,
            digest_agrees,
        }
    }

    /// Returns the one of two verdicts whose digest agrees, and the first if neither or both do.
    fn or(self, other: QuoteVerdict<'a>) -> QuoteVerdict<'a> {
        if !self.digest_agrees && other.digest_agrees {
            return other;
        }
        self
    }
}

/// Returns what these events leave in the PCRs of the banks that have a selection in a quote and are
/// active, in a TPM that was started so.
fn quoted_replays(
    entries: &[LogEntry<'_>],
    quote: &Quote<'_>,
    start: &Start,
) -> Result<Vec<BankPcrs>, AllocError> {
    let banks = quoted_banks(entries, quote)?;
    replay_banks(entries, banks.as_slice(), start)
}

/// Returns the banks that have a selection in a quote and are active in these events, in the order of
/// [`Bank::ALL`].
fn quoted_banks(
    entries: &[LogEntry<'_>],
    quote: &Quote<'_>,
) -> Result<Vec<Bank>, AllocError> {
    Bank::ALL
        .iter()
        .copied()
        .filter(|bank| is_quoted(quote, *bank) && is_active(entries, *bank))
        .fallible_collect()
}

/// Returns whether a digest is this one.
fn is_digest(digest: &[u8], found: &Result<PcrValue, NoQuoteDigest>) -> bool {
    match found {
        Ok(found) => found.as_bytes() == digest,
        Err(_) => false,
    }
}
