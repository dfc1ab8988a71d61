// @generated from proved source. It is not edited.

use crate::support::fallible::*;

use crate::audit_text::json::line::push_line;
use crate::serde_json::{Value, json};
use crate::support::alloc::AllocError;

/// Why a log isn't judged by PCRs or a quote.
#[derive(Clone, Copy, PartialEq, Eq, Debug)]
pub enum NotJudged {
    /// A file wasn't read, or has no PCRs to compare.
    Unread,
    /// The bytes of the quote are none.
    MalformedQuote,
    /// The nonce isn't stated that the quote was asked for with.
    NoNonce,
    /// The hash function of the quote's digest isn't known.
    UnknownHash,
    /// The log's header has more algorithms than are read.
    TooManyAlgorithms,
    /// Bytes follow the log's last event that are no padding.
    LeftOver,
    /// No event extends a PCR.
    NothingMeasured,
    /// No event has a digest of a bank that the quote covers, or it can't be replayed.
    NoBank,
    /// A PCR that the quote covers is undetermined.
    Undetermined,
    /// The quote covers no PCR.
    NoPcr,
}

impl NotJudged {
    /// Returns the reason in words, such as `trailing bytes`.
    fn text(self) -> &'static str {
        match self {
            NotJudged::Unread => "unread",
            NotJudged::MalformedQuote => "malformed quote",
            NotJudged::NoNonce => "no nonce",
            NotJudged::UnknownHash => "unknown hash",
            NotJudged::TooManyAlgorithms => "many algorithms",
            NotJudged::LeftOver => "trailing bytes",
            NotJudged::NothingMeasured => "nothing measured",
            NotJudged::NoBank => "no bank",
            NotJudged::Undetermined => "undetermined",
            NotJudged::NoPcr => "no PCR",
        }
    }
}

/// Appends why a log isn't judged as one line of JSON: an object, and a line break.
///
/// | key | value |
/// |---|---|
/// | `agrees` | `null` |
/// | `covered` | `null` |
/// | `failed` | the reason alone, such as `trailing bytes` |
/// | `log` | what was given: the log's name |
/// | `not_covered` | `null` |
///
/// # Errors
///
/// [`AllocError`] if an allocation fails. The text may have grown then.
pub fn push_unjudged_json(
    text: &mut String,
    name: &str,
    why: NotJudged,
) -> Result<(), AllocError> {
    let value = unjudged_json(name, why)?;
    push_line(text, &value)
}

/// Returns the object of a log.
fn unjudged_json(name: &str, why: NotJudged) -> Result<Value, AllocError> {
    let mut failed = Vec::new();
    failed.fallible_push(Value::try_from_str(why.text())?)?;
    let failed = Value::Array(failed);
    json!({
        "agrees": Value::Null,
        "covered": Value::Null,
        "failed": failed,
        "log": name,
        "not_covered": Value::Null
    })
}
