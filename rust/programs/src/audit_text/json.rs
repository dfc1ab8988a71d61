// @generated from proved source. It is not edited.

//! What an event log has, as the lines of JSON that the program `uefi_audit` prints.
//!
//! [`push_events`] appends the events of a log, a line each, and [`event_line`] returns the line of
//! one event. [`push_replay_json`] appends one line for a log: the PCRs that it leads to, by
//! banks, and why some are undetermined. [`push_verdict_json`] appends one line that says whether a
//! log leads to the PCRs that a TPM held, [`push_quote_json`] one that says whether it agrees with a
//! quote, and [`push_unjudged_json`] why it is judged by neither. [`push_differences_json`] appends a line that says what of
//! two logs is compared, and one for each difference. [`push_check_json`] appends what was checked
//! of a log's events.
//!
//! No control character is in it: in a string each is `\u` and four hex digits.

pub use self::check::push_check_json;
pub use self::diff::push_differences_json;
pub use self::event::event_line;
pub(crate) use self::event::type_json;
pub use self::events::push_events;
pub(crate) use self::line::push_line;
pub use self::quote::push_quote_json;
pub use self::replay::push_replay_json;
pub use self::unjudged::{NotJudged, push_unjudged_json};
pub use self::verdict::push_verdict_json;

mod bank;
mod check;
mod content;
mod coverage;
mod diff;
mod digests;
mod event;
mod events;
mod line;
mod not_replayed;
mod out_of_place;
mod quote;
mod replay;
mod unjudged;
mod verdict;
