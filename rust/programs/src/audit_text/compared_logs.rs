// @generated from proved source. It is not edited.

use uefi_formats::proto::tcg::AlgorithmId;

/// Two logs that are compared: their names, and the algorithms whose digests are.
#[derive(Clone, Copy, Debug)]
pub struct ComparedLogs<'a> {
    /// The name of the old log.
    pub old_name: &'a str,
    /// The name of the new log.
    pub new_name: &'a str,
    /// The algorithms whose digests are compared, as
    /// [`compared_algorithms`](crate::uefi_audits::diff::compared_algorithms) returns them.
    pub algorithms: &'a [AlgorithmId],
}
