// @generated from proved source. It is not edited.

use crate::support::fallible::*;

use crate::rows::names::Names;
use crate::rows::shown::shown;
use crate::support::alloc::AllocError;
use crate::test_support::Refusing;

/// The most requests that are granted to the call of a row.
const MOST_REQUESTS: u64 = 100;

/// What came of the rows of a file.
#[derive(Debug)]
pub struct Judged {
    /// The number of rows.
    pub rows: u64,
    /// The number of rows whose answer isn't as wanted.
    pub failed: u64,
    /// These rows, each with what is wanted of it and what came.
    pub faults: String,
}

/// A row, without its source.
#[derive(Clone, Copy, Debug)]
struct Row<'a> {
    call: &'a str,
    input: &'a str,
    wanted: &'a str,
}

/// Returns the row that a line is, or `None` if it hasn't four parts.
fn row_of<'a>(line: &'a str) -> Result<Option<Row<'a>>, AllocError> {
    let parts = line.split(" | ").fallible_collect::<Vec<&'a str>>()?;
    let [call, input, wanted, _source] = parts.as_slice() else {
        return Ok(None);
    };
    Ok(Some(Row {
        call,
        input,
        wanted,
    }))
}

/// Answers each row of a file, and compares what comes with what is wanted.
///
/// `answer` takes the allocator for the call of a row, the name of the call and its input. It
/// returns `None` if the call ran out of memory.
///
/// # Errors
///
/// [`AllocError`] if memory runs out beside the calls.
pub fn each_row<F>(file: &str, text: &str, answer: &F) -> Result<Judged, AllocError>
where
    F: Fn(&str, &str) -> Option<String>,
{
    let mut faults = String::new();
    let mut names = Names::new();
    let (mut number, mut rows, mut failed) = (0u64, 0u64, 0u64);
    for line in text.lines() {
        number = number.saturating_add(1);
        if line.is_empty() || line.starts_with("#") {
            continue;
        }
        rows = rows.saturating_add(1);
        if let Some(fault) = fault_of(line, &mut names, answer)? {
            failed = failed.saturating_add(1);
            fallible_writeln!(faults, "{file}:{number}: {line}\n{fault}")?;
        }
    }
    Ok(Judged {
        rows,
        failed,
        faults,
    })
}

/// Returns what is wrong with the answer to the row of a line, if anything is. Adds the name that
/// the row has.
fn fault_of<'a, F>(
    line: &'a str,
    names: &mut Names<'a>,
    answer: &F,
) -> Result<Option<String>, AllocError>
where
    F: Fn(&str, &str) -> Option<String>,
{
    let Some(row) = row_of(line)? else {
        return Ok(Some(fallible_format!("  a row has four parts")?));
    };
    let wanted = names.replaced(row.wanted)?;
    if row.call == "name" {
        names.add(row.input, row.wanted)?;
    }
    let wanted = shown(wanted.as_str())?;
    let given = answer_of(row, answer)?;
    if shown(given.as_str())?.as_str() == wanted.as_str() {
        return Ok(None);
    }
    Ok(Some(fallible_format!("  wanted  {wanted}\n  got     {given}")?))
}

/// Returns the answer to a row, with each request of its call in turn as the first that is refused,
/// or what is wrong with how it runs out of memory.
fn answer_of<F>(row: Row<'_>, answer: &F) -> Result<String, AllocError>
where
    F: Fn(&str, &str) -> Option<String>,
{
    for granted in 0..MOST_REQUESTS {
        let (given, is_refused) = asked(granted, row, answer);
        match given {
            Some(given) if is_refused => {
                return fallible_format!("{given}, though a request was refused after {granted}");
            }
            Some(given) => return Ok(given),
            None if is_refused => (),
            None => return fallible_format!("no memory, though no request was refused"),
        }
    }
    fallible_format!("more than {MOST_REQUESTS} requests for memory")
}

/// Returns the answer to a row with this many requests granted, and whether one was refused.
fn asked<F>(granted: u64, row: Row<'_>, answer: &F) -> (Option<String>, bool)
where
    F: Fn(&str, &str) -> Option<String>,
{
    let heap = Refusing::after(granted);
    let given = answer(row.call, row.input);
    (given, !heap.is_waiting())
}
