// @generated from proved source. It is not edited.

use crate::uefi_audits::out_of_place::Rule;

/// Returns what an event is that breaks a rule for its place.
pub(crate) fn rule_name(rule: Rule) -> &'static str {
    match rule {
        Rule::SecondSeparator => "second separator",
        Rule::SeparatorValue => "separator of another value",
        Rule::OtherType => "type of other PCRs",
        Rule::AfterSeparator => "after the separator",
        Rule::Unlogged => "other than its data was measured",
    }
}
