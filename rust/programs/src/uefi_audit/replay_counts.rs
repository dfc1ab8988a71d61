// @generated from proved source. It is not edited.

/// Of many logs, how many were replayed, and for how many of these a locality was assumed at which PCR 0
/// starts.
#[derive(Clone, Copy, Default, Debug)]
pub(crate) struct ReplayCounts {
    /// How many were replayed.
    pub replayed: usize,
    /// For how many neither the log nor the caller states a locality.
    pub assumed: usize,
}

impl ReplayCounts {
    /// Returns these counts with one more log.
    pub(crate) fn with(self, is_stated: bool) -> ReplayCounts {
        ReplayCounts {
            replayed: self.replayed.saturating_add(1),
            assumed: self.assumed.saturating_add(usize::from(!is_stated)),
        }
    }
}
