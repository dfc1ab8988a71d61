// @generated from proved source. It is not edited.

/// Returns how many first items both slices have.
pub(crate) fn common_prefix_length<T: PartialEq>(old: &[T], new: &[T]) -> usize {
    let shorter = old.len().min(new.len());
    for index in 0..shorter {
        if old[index] != new[index] {
            return index;
        }
    }
    shorter
}
