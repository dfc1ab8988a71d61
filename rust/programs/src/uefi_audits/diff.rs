// @generated from proved source. It is not edited.

//! How two event logs differ, by PCRs.
//!
//! [`differences`] pairs each event of a log with its counterpart in another, and returns, for each
//! PCR whose events differ, the pairs that aren't the same, the events that only one log has, and
//! whether their order is another. [`compared_algorithms`] returns the algorithms whose digests both
//! logs have, and [`is_same_event`] compares two events.

pub use self::algorithms::compared_algorithms;
pub use self::compared::{ComparedParts, is_same_event};
pub use self::difference::{EventChange, PcrDifference, differences};
pub use self::events::{EventDifference, event_differences};
pub use self::names::{EventName, command_name, has_uncovered_name};
pub use self::pcr::{ABOVE, NumberedEntry, numbered_entries};

mod algorithms;
mod changed;
mod compared;
mod counterparts;
mod difference;
mod event_key;
mod events;
mod moved;
mod names;
mod pcr;
