// @generated from proved source. It is not edited.

//! Whether an event log leads to the PCRs that a TPM held.
//!
//! [`held_in_text`] reads PCRs from a text, [`held_in_file`] one PCR from its file in Linux's
//! sysfs. A [`PcrSelection`] says which of them are asked for ([`selections_in`]): [`selected_pcrs`] are
//! those that are held, and [`missing_pcrs`] those that aren't. [`Verdict::new`] compares PCRs with those
//! that the events of a log lead to in their banks, the [`held_banks`]. [`uncompared_pcrs`] are those
//! that events extend and that weren't compared. [`QuoteVerdict::new`] compares the digest of a quote,
//! which covers the [`covered_pcrs`].
//!
//! [`ComparedPcrs`] and [`ComparedQuote`] have a verdict and its [`Coverage`]. They agree if that is
//! whole, too.

pub use self::banks::held_banks;
pub use self::compared::{ComparedPcrs, ComparedQuote};
pub use self::comparison::{agrees, led_to};
pub use self::coverage::Coverage;
pub use self::covered::covered_pcrs;
pub use self::held::{Held, HeldError, HeldPcr};
pub use self::missing::{asked_pcrs, missing_pcrs};
pub use self::named::{NamedPcr, named_pcrs};
pub use self::quote::{QuoteVerdict, ReceivedQuote};
pub use self::reading::{held_in_file, held_in_text};
pub use self::selection::{PcrSelection, selected_pcrs, selections_in};
pub(crate) use self::uncompared::extends;
pub use self::uncompared::uncompared_pcrs;
pub use self::verdict::Verdict;

mod banks;
mod compared;
mod comparison;
mod coverage;
mod covered;
mod held;
mod line;
mod missing;
mod named;
mod quote;
mod reading;
mod selection;
pub(crate) mod splitting;
mod uncompared;
mod verdict;
