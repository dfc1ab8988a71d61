use super::each_row;
use crate::support::test::Fail;

/// Answers the rows of each file, which has a name and a text. Each request for memory is refused in turn, also those of
/// the answer's own text.
///
/// # Errors
///
/// A failure with each row whose answer isn't as wanted, or if a file has no row.
pub fn answered(files: &[(&str, &str)], answer: impl Fn(&str, &str) -> Option<String>) -> Result<(), Fail> {
    for (file, text) in files {
        let judged = each_row(file, text, &answer)?;
        if judged.failed != 0 || judged.rows == 0 {
            let (rows, failed, faults) = (judged.rows, judged.failed, judged.faults);
            return Err(Fail::new(format_args!("{file}: {rows} rows, {failed} of them not as wanted\n{faults}")));
        }
    }
    Ok(())
}
