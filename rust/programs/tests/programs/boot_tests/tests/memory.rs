// @generated from proved source. It is not edited.

use crate::boot_tests::tests::folders::{FOLDERS, Folder, files_of};
use crate::boot_tests::tests::runs::{OPTIONS, PATHS, Run, TEXTS};
use crate::boot_listing::Outcome;
use crate::boot_listing::command::Form;
use crate::boot_listing::list::folder_listing;
use crate::boot_listing::option::push_load_option_listing;
use crate::boot_listing::path::push_path_listing;
use crate::boot_listing::text::push_path_text_listing;
use crate::boot_listing::variables::VariableFile;
use crate::support::test::Fail;
use crate::test_support::{bytes, takes_memory};

/// Returns whether the listing of files is the expected one, and its outcome; or `None` if memory
/// ran out.
fn listed(
    form: Form,
    files: &[VariableFile],
    expected: &str,
) -> Option<(bool, Outcome)> {
    let (text, outcome) = folder_listing(form, files).ok()?;
    Some((text.as_str() == expected, outcome))
}

/// Checks that the listing of a folder is made, or a request for memory was refused.
fn check_folder((form, rows, expected, outcome): &Folder) -> Result<(), Fail> {
    let files = files_of(rows)?;
    takes_memory(
        &(true, *outcome),
        || listed(*form, files.as_slice(), expected),
    )
}

#[test]
fn a_folder_is_listed_or_memory_was_refused() -> Result<(), Fail> {
    for folder in &FOLDERS {
        check_folder(folder)?;
    }
    Ok(())
}

/// Returns whether the listing of a load option is the expected one, and its outcome; or `None` if
/// memory ran out.
fn option_listed(
    form: Form,
    input: &[u8],
    expected: &str,
) -> Option<(bool, Outcome)> {
    let mut text = String::new();
    let outcome = push_load_option_listing(&mut text, form, input).ok()?;
    Some((text.as_str() == expected, outcome))
}

/// Checks that the listing of a load option is made, or a request for memory was refused.
fn check_option((form, row, expected, outcome): &Run) -> Result<(), Fail> {
    let input = bytes(row)?;
    takes_memory(
        &(true, *outcome),
        || option_listed(*form, input.as_slice(), expected),
    )
}

#[test]
fn an_option_is_listed_or_memory_was_refused() -> Result<(), Fail> {
    for run in &OPTIONS {
        check_option(run)?;
    }
    Ok(())
}

/// Returns whether the text of a path is the expected one, and its outcome; or `None` if memory ran
/// out.
fn text_listed(
    form: Form,
    input: &[u8],
    expected: &str,
) -> Option<(bool, Outcome)> {
    let mut text = String::new();
    let outcome = push_path_text_listing(&mut text, form, input).ok()?;
    Some((text.as_str() == expected, outcome))
}

/// Checks that the text of a path is made, or a request for memory was refused.
fn check_text((form, row, expected, outcome): &Run) -> Result<(), Fail> {
    let input = bytes(row)?;
    takes_memory(
        &(true, *outcome),
        || text_listed(*form, input.as_slice(), expected),
    )
}

#[test]
fn a_path_is_a_text_or_memory_was_refused() -> Result<(), Fail> {
    for run in &PATHS {
        check_text(run)?;
    }
    Ok(())
}

/// Returns whether the line of a text of a path is the expected one, and its outcome; or `None` if
/// memory ran out.
fn path_listed(
    form: Form,
    input: &str,
    expected: &str,
) -> Option<(bool, Outcome)> {
    let mut text = String::new();
    let outcome = push_path_listing(&mut text, form, input).ok()?;
    Some((text.as_str() == expected, outcome))
}

/// Checks that the line of a text of a path is made, or a request for memory was refused.
fn check_path((form, input, expected, outcome): &Run) -> Result<(), Fail> {
    takes_memory(
        &(true, *outcome),
        || path_listed(*form, input, expected),
    )
}

#[test]
fn a_text_is_a_path_or_memory_was_refused() -> Result<(), Fail> {
    for run in &TEXTS {
        check_path(run)?;
    }
    Ok(())
}
