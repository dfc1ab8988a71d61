// @generated from proved source. It is not edited.

//! How many events of each type match.

use crate::support::fallible::*;

use crate::uefi_audits::check::result::CheckedEntry;
use crate::uefi_audits::check::{Checked, Form};
use crate::support::alloc::AllocError;
use crate::support::collections::BTreeMap;
use uefi_formats::proto::tcg::EventType;

/// How many events of a type match, and in which forms, how many don't, and how many aren't covered.
#[derive(Clone, Copy, PartialEq, Eq, Debug)]
pub struct TypeCounts {
    /// The type.
    pub event_type: EventType,
    /// How many match.
    pub matches: u64,
    /// How many match in each form, in the order of [`Form::ALL`].
    pub by_form: [u64; 6],
    /// How many match in none of the type's forms.
    pub matches_none: u64,
    /// Of how many the log doesn't have what was measured.
    pub not_in_log: u64,
    /// How many aren't covered.
    pub not_covered: u64,
}

impl TypeCounts {
    /// Returns the counts of a type of which there is no event yet.
    fn new(event_type: EventType) -> TypeCounts {
        TypeCounts {
            event_type,
            matches: 0,
            by_form: [0; 6],
            matches_none: 0,
            not_in_log: 0,
            not_covered: 0,
        }
    }

    /// Counts one more event, by what its digests say; `None` if it isn't covered.
    fn add(&mut self, checked: Option<Checked>) {
        match checked {
            Some(Checked::Matches(form)) => {
                self.matches += 1;
                self.by_form[form.index()] += 1;
            }
            Some(Checked::MatchesNone) => self.matches_none += 1,
            Some(Checked::NotInLog) => self.not_in_log += 1,
            None => self.not_covered += 1,
        }
    }

    /// Returns how many match in a form.
    pub fn matching_in(&self, form: Form) -> u64 {
        self.by_form[form.index()]
    }
}

/// Returns how many of these events of each type match, in the order of the types' numbers.
pub(super) fn counts_of(
    all: &[CheckedEntry<'_>],
) -> Result<Vec<TypeCounts>, AllocError> {
    let mut types = BTreeMap::new();
    for index in 0..all.len() {
        let it = &all[index];
        count(&mut types, it.entry.event.event_type(), it.checked)?;
    }
    types.values().copied().fallible_collect()
}

/// Counts one more event of a type.
fn count(
    types: &mut BTreeMap<u32, TypeCounts>,
    event_type: EventType,
    checked: Option<Checked>,
) -> Result<(), AllocError> {
    let number = event_type.0;
    let none = TypeCounts::new(event_type);
    let mut counts = types.get(&number).copied().unwrap_or(none);
    counts.add(checked);
    types.insert(number, counts)?;
    Ok(())
}
